-- Each aggregate over json and jsonb: joins of groups, groups that conflict, NULL, and texts that are not a patch.
\pset null (null)

CREATE TABLE log (number int PRIMARY KEY, document text, patch json);
INSERT INTO log VALUES
  (1, 'first', '{"author": "Ada"}'), (2, 'second', '{"n": 1}'), (3, 'first', NULL), (4, 'first', '{"title": null}'),
  (5, 'second', '{"m": [1, 2], "n": 2}'), (6, 'first', '{"author": "Ada"}'), (7, 'third', NULL);

SELECT document, mergejoin_agg(patch), mergejoin_agg(patch::jsonb) FROM log WHERE document <> 'second' GROUP BY document
  ORDER BY document;
SELECT document, mergejoin_try_agg(patch), mergejoin_try_agg(patch::jsonb),
  mergejoin_conflict_agg(patch ORDER BY number) FROM log GROUP BY document ORDER BY document;
SELECT mergejoin_conflict_agg(patch ORDER BY number DESC) FROM log;
SELECT document, mergejoin_report_agg(patch ORDER BY number), mergejoin_report_agg(patch::jsonb ORDER BY number),
  mergejoin_conflict_agg(patch::jsonb ORDER BY number) FROM log GROUP BY document ORDER BY document;
SELECT mergejoin_report_agg(patch ORDER BY number) FROM (SELECT number, patch FROM log UNION ALL VALUES (9, '1.5'::json)) AS longer;
SELECT mergejoin_agg(patch), mergejoin_try_agg(patch), mergejoin_conflict_agg(patch), mergejoin_report_agg(patch) FROM log WHERE false;
SELECT mergejoin_agg(patch) FROM log;
SELECT mergejoin_agg(patch::jsonb) FROM log;

-- Of a window, the join so far.
SELECT number, mergejoin_try_agg(patch) OVER (PARTITION BY document ORDER BY number) FROM log ORDER BY number;

-- A text that is not a patch is an error, whether it arrives before a conflict or after it, in whichever group.
SELECT mergejoin_agg(patch ORDER BY number) FROM (SELECT number, patch FROM log UNION ALL VALUES (0, '1.5'::json)) AS longer;
SELECT mergejoin_try_agg(patch ORDER BY number) FROM (SELECT number, patch FROM log UNION ALL VALUES (9, '1.5'::json)) AS longer;
SELECT mergejoin_try_agg(patch::jsonb ORDER BY number)
  FROM (SELECT number, patch FROM log UNION ALL VALUES (9, '1.5'::json)) AS longer;
SELECT mergejoin_conflict_agg(patch ORDER BY number)
  FROM (SELECT number, patch FROM log UNION ALL VALUES (9, '1.5'::json)) AS longer;

-- Many patches: what is joined on the way is joined again.
SELECT length(joined::text), md5(joined::text) FROM (
  SELECT mergejoin_agg(json_build_object('n' || number % 500, number % 500, 'é', repeat('é', 150))) AS joined
  FROM generate_series(1, 2000) AS number) AS all_of_them;

-- A compaction that is run twice.
CREATE TABLE compacted (document text PRIMARY KEY, patch json);
INSERT INTO compacted SELECT document, mergejoin_agg(patch) FROM log WHERE document = 'first' GROUP BY document
  ON CONFLICT (document) DO UPDATE SET patch = mergejoin_join(compacted.patch, excluded.patch);
INSERT INTO compacted SELECT document, mergejoin_agg(patch) FROM log WHERE document = 'first' GROUP BY document
  ON CONFLICT (document) DO UPDATE SET patch = mergejoin_join(compacted.patch, excluded.patch);
SELECT * FROM compacted ORDER BY document;

DROP TABLE log, compacted;
