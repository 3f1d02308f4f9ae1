-- Each function over json, jsonb and texts, and each error.
\pset null (null)
\set SHOW_CONTEXT never

SELECT mergejoin_join('{"author": "Ada"}'::json, '{"title": null}');
SELECT mergejoin_join('{"author": "Ada"}'::jsonb, '{"title": null}');
SELECT mergejoin_replay('{"title": "Notes"}'::json, '{"author": "Ada"}', '{"title": null}');
SELECT mergejoin_replay('{"title": "Notes"}'::jsonb, '{"author": "Ada"}', '{"title": null}');
SELECT mergejoin_replay('{"title": "Notes"}'::json, VARIADIC '{}');
SELECT mergejoin_merge('{"n": 1}'::json, '{"n": 2}', '{"n": 3}');
SELECT mergejoin_merge('{"n": 1}'::jsonb, '{"n": 2}', '{"n": 3}');
SELECT mergejoin_rewrite('{"n": 1, "m": 2}'::json, '{"n": null}');
SELECT mergejoin_rewrite('{"n": 1, "m": 2}'::jsonb, '{"n": null}');
SELECT mergejoin_patch('{"n": 1}'::json, '[{"op": "move", "from": "/n", "path": "/m"}]');
SELECT mergejoin_patch('{"n": 1}'::jsonb, '[{"op": "move", "from": "/n", "path": "/m"}]');
SELECT mergejoin_get('{"tags": ["a", "b"]}'::json, '/tags/1');
SELECT mergejoin_get('{"tags": ["a", "b"]}'::jsonb, '/tags/1');
SELECT mergejoin_get('{"tags": ["a", "b"]}'::json, '/tags/2');
SELECT mergejoin_get('{"tags": ["a", "b"]}'::jsonb, '/tags/2');
SELECT mergejoin_get('{"tags": null}'::json, '/tags');
SELECT mergejoin_conflicts('{"n": 1, "m": 2}'::json, '{"n": 2, "m": null}');
SELECT mergejoin_conflicts('{"n": 1, "m": 2}'::jsonb, '{"n": 2, "m": null}');
SELECT mergejoin_conflicts('{"n": 1}'::json, '{"m": 1}');
SELECT mergejoin_is_patch('{"n": 1.5}'::json), mergejoin_is_patch('{"n": 1.5}'::jsonb), mergejoin_is_patch('{"n": 15}'::jsonb);

-- Literals without a type, and texts that are not JSON.
SELECT mergejoin_join('{"author": "Ada"}', '{"title": null}');
SELECT mergejoin_get('{"tags": ["a", "b"]}', '/tags/1');
SELECT mergejoin_is_patch('{"n":'), mergejoin_is_patch('{"n": 1}'), mergejoin_is_patch(NULL);
SELECT mergejoin_join('{"n":');

-- NULL is answered with NULL, but for an element of an array.
SELECT mergejoin_join(VARIADIC NULL::json[]);
SELECT mergejoin_merge(NULL::jsonb, '{}');
SELECT mergejoin_join('1'::json, NULL);
SELECT mergejoin_join('1'::jsonb, NULL);

-- What the library refuses.
SELECT mergejoin_join('{"author": "Ada"}'::json, '{}', '{"author": "Bob"}');
SELECT mergejoin_replay('{"title": "Notes"}'::json, '{"author": "Ada"}', '{"author": "Bob"}');
SELECT mergejoin_join(VARIADIC '{}'::json[]);
SELECT mergejoin_patch('{"n": 1}'::json, '[{"op": "test", "path": "", "value": {"n": 1}}, {"op": "remove", "path": "/m"}]');
SELECT mergejoin_patch('{"n": 1}'::json, '{}');
SELECT mergejoin_patch('{"n": 1}'::json, '[{"op": "remove"}]');
SELECT mergejoin_merge('1.5'::json, '{}');
SELECT mergejoin_merge('{}'::json, '1', '"\ud800"');
SELECT mergejoin_get('{}'::json, 'tags');
SELECT mergejoin_get('{}'::json, '/~2');
SELECT mergejoin_join((repeat('[', 127) || repeat(']', 127))::json, '1');

-- Longer than all that is read.
SELECT length(mergejoin_patch('{"a": "0123456789"}'::json, (SELECT json_agg(json_build_object(
  'op', 'copy', 'from', '', 'path', '/' || number)) FROM generate_series(1, 10) AS number))::text);
