-- The functions and aggregates of the extension, over json and over jsonb.
\echo Use "CREATE EXTENSION mergejoin" to load this file. \quit

-- Over json. A text costs some microseconds to read, which COST tells the planner.

CREATE FUNCTION mergejoin_join(VARIADIC patches pg_catalog.json[]) RETURNS pg_catalog.json
  LANGUAGE C IMMUTABLE STRICT PARALLEL SAFE COST 100 AS 'MODULE_PATHNAME', 'mergejoin_sql_join';

CREATE FUNCTION mergejoin_replay(start pg_catalog.json, VARIADIC patches pg_catalog.json[]) RETURNS pg_catalog.json
  LANGUAGE C IMMUTABLE STRICT PARALLEL SAFE COST 100 AS 'MODULE_PATHNAME', 'mergejoin_sql_replay';

CREATE FUNCTION mergejoin_merge(document pg_catalog.json, VARIADIC patches pg_catalog.json[]) RETURNS pg_catalog.json
  LANGUAGE C IMMUTABLE STRICT PARALLEL SAFE COST 100 AS 'MODULE_PATHNAME', 'mergejoin_sql_merge';

CREATE FUNCTION mergejoin_rewrite(document pg_catalog.json, patch pg_catalog.json) RETURNS pg_catalog.json
  LANGUAGE C IMMUTABLE STRICT PARALLEL SAFE COST 100 AS 'MODULE_PATHNAME', 'mergejoin_sql_rewrite';

CREATE FUNCTION mergejoin_patch(document pg_catalog.json, operations pg_catalog.json) RETURNS pg_catalog.json
  LANGUAGE C IMMUTABLE STRICT PARALLEL SAFE COST 100 AS 'MODULE_PATHNAME', 'mergejoin_sql_patch';

CREATE FUNCTION mergejoin_get(document pg_catalog.json, pointer pg_catalog.text) RETURNS pg_catalog.json
  LANGUAGE C IMMUTABLE STRICT PARALLEL SAFE COST 100 AS 'MODULE_PATHNAME', 'mergejoin_sql_get';

CREATE FUNCTION mergejoin_conflicts(first pg_catalog.json, second pg_catalog.json) RETURNS pg_catalog.json
  LANGUAGE C IMMUTABLE STRICT PARALLEL SAFE COST 100 AS 'MODULE_PATHNAME', 'mergejoin_sql_conflicts';

CREATE FUNCTION mergejoin_is_patch(patch pg_catalog.json) RETURNS pg_catalog.bool
  LANGUAGE C IMMUTABLE STRICT PARALLEL SAFE COST 100 AS 'MODULE_PATHNAME', 'mergejoin_sql_is_patch';

-- Over texts that are not known to be JSON. A call whose arguments are literals without a type is one of these.

CREATE FUNCTION mergejoin_join(VARIADIC patches pg_catalog.text[]) RETURNS pg_catalog.json
  LANGUAGE C IMMUTABLE STRICT PARALLEL SAFE COST 100 AS 'MODULE_PATHNAME', 'mergejoin_sql_join';

CREATE FUNCTION mergejoin_replay(start pg_catalog.text, VARIADIC patches pg_catalog.text[]) RETURNS pg_catalog.json
  LANGUAGE C IMMUTABLE STRICT PARALLEL SAFE COST 100 AS 'MODULE_PATHNAME', 'mergejoin_sql_replay';

CREATE FUNCTION mergejoin_merge(document pg_catalog.text, VARIADIC patches pg_catalog.text[]) RETURNS pg_catalog.json
  LANGUAGE C IMMUTABLE STRICT PARALLEL SAFE COST 100 AS 'MODULE_PATHNAME', 'mergejoin_sql_merge';

CREATE FUNCTION mergejoin_rewrite(document pg_catalog.text, patch pg_catalog.text) RETURNS pg_catalog.json
  LANGUAGE C IMMUTABLE STRICT PARALLEL SAFE COST 100 AS 'MODULE_PATHNAME', 'mergejoin_sql_rewrite';

CREATE FUNCTION mergejoin_patch(document pg_catalog.text, operations pg_catalog.text) RETURNS pg_catalog.json
  LANGUAGE C IMMUTABLE STRICT PARALLEL SAFE COST 100 AS 'MODULE_PATHNAME', 'mergejoin_sql_patch';

CREATE FUNCTION mergejoin_get(document pg_catalog.text, pointer pg_catalog.text) RETURNS pg_catalog.json
  LANGUAGE C IMMUTABLE STRICT PARALLEL SAFE COST 100 AS 'MODULE_PATHNAME', 'mergejoin_sql_get';

CREATE FUNCTION mergejoin_conflicts(first pg_catalog.text, second pg_catalog.text) RETURNS pg_catalog.json
  LANGUAGE C IMMUTABLE STRICT PARALLEL SAFE COST 100 AS 'MODULE_PATHNAME', 'mergejoin_sql_conflicts';

CREATE FUNCTION mergejoin_is_patch(patch pg_catalog.text) RETURNS pg_catalog.bool
  LANGUAGE C IMMUTABLE STRICT PARALLEL SAFE COST 100 AS 'MODULE_PATHNAME', 'mergejoin_sql_is_patch';

-- Over jsonb: of the text that a jsonb is written as. The functions see from their types what they are given.

CREATE FUNCTION mergejoin_join(VARIADIC patches pg_catalog.jsonb[]) RETURNS pg_catalog.jsonb
  LANGUAGE C IMMUTABLE STRICT PARALLEL SAFE COST 100 AS 'MODULE_PATHNAME', 'mergejoin_sql_join';

CREATE FUNCTION mergejoin_replay(start pg_catalog.jsonb, VARIADIC patches pg_catalog.jsonb[]) RETURNS pg_catalog.jsonb
  LANGUAGE C IMMUTABLE STRICT PARALLEL SAFE COST 100 AS 'MODULE_PATHNAME', 'mergejoin_sql_replay';

CREATE FUNCTION mergejoin_merge(document pg_catalog.jsonb, VARIADIC patches pg_catalog.jsonb[]) RETURNS pg_catalog.jsonb
  LANGUAGE C IMMUTABLE STRICT PARALLEL SAFE COST 100 AS 'MODULE_PATHNAME', 'mergejoin_sql_merge';

CREATE FUNCTION mergejoin_rewrite(document pg_catalog.jsonb, patch pg_catalog.jsonb) RETURNS pg_catalog.jsonb
  LANGUAGE C IMMUTABLE STRICT PARALLEL SAFE COST 100 AS 'MODULE_PATHNAME', 'mergejoin_sql_rewrite';

CREATE FUNCTION mergejoin_patch(document pg_catalog.jsonb, operations pg_catalog.jsonb) RETURNS pg_catalog.jsonb
  LANGUAGE C IMMUTABLE STRICT PARALLEL SAFE COST 100 AS 'MODULE_PATHNAME', 'mergejoin_sql_patch';

CREATE FUNCTION mergejoin_get(document pg_catalog.jsonb, pointer pg_catalog.text) RETURNS pg_catalog.jsonb
  LANGUAGE C IMMUTABLE STRICT PARALLEL SAFE COST 100 AS 'MODULE_PATHNAME', 'mergejoin_sql_get';

CREATE FUNCTION mergejoin_conflicts(first pg_catalog.jsonb, second pg_catalog.jsonb) RETURNS pg_catalog.jsonb
  LANGUAGE C IMMUTABLE STRICT PARALLEL SAFE COST 100 AS 'MODULE_PATHNAME', 'mergejoin_sql_conflicts';

CREATE FUNCTION mergejoin_is_patch(patch pg_catalog.jsonb) RETURNS pg_catalog.bool
  LANGUAGE C IMMUTABLE STRICT PARALLEL SAFE COST 100 AS 'MODULE_PATHNAME', 'mergejoin_sql_is_patch';

-- What the aggregates are made of. A function with a state of type internal takes NULL if there is no state yet.

CREATE FUNCTION mergejoin_agg_take(pg_catalog.internal, pg_catalog.json) RETURNS pg_catalog.internal
  LANGUAGE C IMMUTABLE PARALLEL SAFE COST 100 AS 'MODULE_PATHNAME', 'mergejoin_take';

CREATE FUNCTION mergejoin_agg_take(pg_catalog.internal, pg_catalog.jsonb) RETURNS pg_catalog.internal
  LANGUAGE C IMMUTABLE PARALLEL SAFE COST 100 AS 'MODULE_PATHNAME', 'mergejoin_take';

CREATE FUNCTION mergejoin_agg_combine(pg_catalog.internal, pg_catalog.internal) RETURNS pg_catalog.internal
  LANGUAGE C IMMUTABLE PARALLEL SAFE COST 100 AS 'MODULE_PATHNAME', 'mergejoin_combine';

CREATE FUNCTION mergejoin_agg_serialize(pg_catalog.internal) RETURNS pg_catalog.bytea
  LANGUAGE C IMMUTABLE STRICT PARALLEL SAFE COST 100 AS 'MODULE_PATHNAME', 'mergejoin_serialize';

CREATE FUNCTION mergejoin_agg_deserialize(pg_catalog.bytea, pg_catalog.internal) RETURNS pg_catalog.internal
  LANGUAGE C IMMUTABLE STRICT PARALLEL SAFE COST 100 AS 'MODULE_PATHNAME', 'mergejoin_deserialize';

CREATE FUNCTION mergejoin_agg_final_json(pg_catalog.internal) RETURNS pg_catalog.json
  LANGUAGE C IMMUTABLE STRICT PARALLEL SAFE COST 100 AS 'MODULE_PATHNAME', 'mergejoin_joined';

CREATE FUNCTION mergejoin_agg_final_jsonb(pg_catalog.internal) RETURNS pg_catalog.jsonb
  LANGUAGE C IMMUTABLE STRICT PARALLEL SAFE COST 100 AS 'MODULE_PATHNAME', 'mergejoin_joined';

CREATE FUNCTION mergejoin_try_agg_final_json(pg_catalog.internal) RETURNS pg_catalog.json
  LANGUAGE C IMMUTABLE STRICT PARALLEL SAFE COST 100 AS 'MODULE_PATHNAME', 'mergejoin_joined_or_null';

CREATE FUNCTION mergejoin_try_agg_final_jsonb(pg_catalog.internal) RETURNS pg_catalog.jsonb
  LANGUAGE C IMMUTABLE STRICT PARALLEL SAFE COST 100 AS 'MODULE_PATHNAME', 'mergejoin_joined_or_null';

CREATE FUNCTION mergejoin_conflict_agg_final(pg_catalog.json[]) RETURNS pg_catalog.json
  LANGUAGE C IMMUTABLE STRICT PARALLEL SAFE COST 100 AS 'MODULE_PATHNAME', 'mergejoin_first_conflict';

CREATE FUNCTION mergejoin_report_agg_final(pg_catalog.json[]) RETURNS pg_catalog.json
  LANGUAGE C IMMUTABLE STRICT PARALLEL SAFE COST 100 AS 'MODULE_PATHNAME', 'mergejoin_report';

CREATE FUNCTION mergejoin_conflict_agg_final(pg_catalog.jsonb[]) RETURNS pg_catalog.jsonb
  LANGUAGE C IMMUTABLE STRICT PARALLEL SAFE COST 100 AS 'MODULE_PATHNAME', 'mergejoin_first_conflict';

CREATE FUNCTION mergejoin_report_agg_final(pg_catalog.jsonb[]) RETURNS pg_catalog.jsonb
  LANGUAGE C IMMUTABLE STRICT PARALLEL SAFE COST 100 AS 'MODULE_PATHNAME', 'mergejoin_report';

-- The join of a group. A state has its join as a document in memory: SSPACE, that of a dozen small patches, tells the planner when to sort.

CREATE AGGREGATE mergejoin_agg(pg_catalog.json) (
  STYPE = pg_catalog.internal, SSPACE = 16384, SFUNC = mergejoin_agg_take, FINALFUNC = mergejoin_agg_final_json,
  COMBINEFUNC = mergejoin_agg_combine, SERIALFUNC = mergejoin_agg_serialize,
  DESERIALFUNC = mergejoin_agg_deserialize, PARALLEL = SAFE);

CREATE AGGREGATE mergejoin_agg(pg_catalog.jsonb) (
  STYPE = pg_catalog.internal, SSPACE = 16384, SFUNC = mergejoin_agg_take, FINALFUNC = mergejoin_agg_final_jsonb,
  COMBINEFUNC = mergejoin_agg_combine, SERIALFUNC = mergejoin_agg_serialize,
  DESERIALFUNC = mergejoin_agg_deserialize, PARALLEL = SAFE);

-- The same, but NULL if two conflict.

CREATE AGGREGATE mergejoin_try_agg(pg_catalog.json) (
  STYPE = pg_catalog.internal, SSPACE = 16384, SFUNC = mergejoin_agg_take, FINALFUNC = mergejoin_try_agg_final_json,
  COMBINEFUNC = mergejoin_agg_combine, SERIALFUNC = mergejoin_agg_serialize,
  DESERIALFUNC = mergejoin_agg_deserialize, PARALLEL = SAFE);

CREATE AGGREGATE mergejoin_try_agg(pg_catalog.jsonb) (
  STYPE = pg_catalog.internal, SSPACE = 16384, SFUNC = mergejoin_agg_take, FINALFUNC = mergejoin_try_agg_final_jsonb,
  COMBINEFUNC = mergejoin_agg_combine, SERIALFUNC = mergejoin_agg_serialize,
  DESERIALFUNC = mergejoin_agg_deserialize, PARALLEL = SAFE);

-- The first two patches of a group that conflict, and what a group is, in the order of the call. They keep all patches.

CREATE AGGREGATE mergejoin_conflict_agg(pg_catalog.json) (
  STYPE = pg_catalog.json[], SSPACE = 8192, SFUNC = pg_catalog.array_append, FINALFUNC = mergejoin_conflict_agg_final, PARALLEL = SAFE);

CREATE AGGREGATE mergejoin_conflict_agg(pg_catalog.jsonb) (
  STYPE = pg_catalog.jsonb[], SSPACE = 8192, SFUNC = pg_catalog.array_append, FINALFUNC = mergejoin_conflict_agg_final, PARALLEL = SAFE);

CREATE AGGREGATE mergejoin_report_agg(pg_catalog.json) (
  STYPE = pg_catalog.json[], SSPACE = 8192, SFUNC = pg_catalog.array_append, FINALFUNC = mergejoin_report_agg_final, PARALLEL = SAFE);

CREATE AGGREGATE mergejoin_report_agg(pg_catalog.jsonb) (
  STYPE = pg_catalog.jsonb[], SSPACE = 8192, SFUNC = pg_catalog.array_append, FINALFUNC = mergejoin_report_agg_final, PARALLEL = SAFE);

-- What each is for.

COMMENT ON FUNCTION mergejoin_join(VARIADIC pg_catalog.json[]) IS
  'one merge patch with the effect of all, in any order and with any repeats';
COMMENT ON FUNCTION mergejoin_join(VARIADIC pg_catalog.text[]) IS
  'one merge patch with the effect of all, in any order and with any repeats';
COMMENT ON FUNCTION mergejoin_join(VARIADIC pg_catalog.jsonb[]) IS
  'one merge patch with the effect of all, in any order and with any repeats';
COMMENT ON FUNCTION mergejoin_replay(pg_catalog.json, VARIADIC pg_catalog.json[]) IS
  'the document that merge patches, no two of which conflict, make of the start, in any order and with any repeats';
COMMENT ON FUNCTION mergejoin_replay(pg_catalog.text, VARIADIC pg_catalog.text[]) IS
  'the document that merge patches, no two of which conflict, make of the start, in any order and with any repeats';
COMMENT ON FUNCTION mergejoin_replay(pg_catalog.jsonb, VARIADIC pg_catalog.jsonb[]) IS
  'the document that merge patches, no two of which conflict, make of the start, in any order and with any repeats';
COMMENT ON FUNCTION mergejoin_merge(pg_catalog.json, VARIADIC pg_catalog.json[]) IS
  'the document after merge patches in turn (RFC 7396): if two conflict, their order decides';
COMMENT ON FUNCTION mergejoin_merge(pg_catalog.text, VARIADIC pg_catalog.text[]) IS
  'the document after merge patches in turn (RFC 7396): if two conflict, their order decides';
COMMENT ON FUNCTION mergejoin_merge(pg_catalog.jsonb, VARIADIC pg_catalog.jsonb[]) IS
  'the document after merge patches in turn (RFC 7396): if two conflict, their order decides';
COMMENT ON FUNCTION mergejoin_rewrite(pg_catalog.json, pg_catalog.json) IS
  'a merge patch as a JSON Patch for the document';
COMMENT ON FUNCTION mergejoin_rewrite(pg_catalog.text, pg_catalog.text) IS
  'a merge patch as a JSON Patch for the document';
COMMENT ON FUNCTION mergejoin_rewrite(pg_catalog.jsonb, pg_catalog.jsonb) IS
  'a merge patch as a JSON Patch for the document';
COMMENT ON FUNCTION mergejoin_patch(pg_catalog.json, pg_catalog.json) IS
  'the document after a JSON Patch (RFC 6902)';
COMMENT ON FUNCTION mergejoin_patch(pg_catalog.text, pg_catalog.text) IS
  'the document after a JSON Patch (RFC 6902)';
COMMENT ON FUNCTION mergejoin_patch(pg_catalog.jsonb, pg_catalog.jsonb) IS
  'the document after a JSON Patch (RFC 6902)';
COMMENT ON FUNCTION mergejoin_get(pg_catalog.json, pg_catalog.text) IS
  'the part of the document that a JSON Pointer names (RFC 6901), or NULL if it is absent';
COMMENT ON FUNCTION mergejoin_get(pg_catalog.text, pg_catalog.text) IS
  'the part of the document that a JSON Pointer names (RFC 6901), or NULL if it is absent';
COMMENT ON FUNCTION mergejoin_get(pg_catalog.jsonb, pg_catalog.text) IS
  'the part of the document that a JSON Pointer names (RFC 6901), or NULL if it is absent';
COMMENT ON FUNCTION mergejoin_conflicts(pg_catalog.json, pg_catalog.json) IS
  'the places at which two merge patches conflict, as an array of JSON Pointers, empty if they do not';
COMMENT ON FUNCTION mergejoin_conflicts(pg_catalog.text, pg_catalog.text) IS
  'the places at which two merge patches conflict, as an array of JSON Pointers, empty if they do not';
COMMENT ON FUNCTION mergejoin_conflicts(pg_catalog.jsonb, pg_catalog.jsonb) IS
  'the places at which two merge patches conflict, as an array of JSON Pointers, empty if they do not';
COMMENT ON FUNCTION mergejoin_is_patch(pg_catalog.json) IS
  'whether a value is a merge patch for this extension: its numbers are whole, and it is not too deep';
COMMENT ON FUNCTION mergejoin_is_patch(pg_catalog.text) IS
  'whether a value is a merge patch for this extension: its numbers are whole, and it is not too deep';
COMMENT ON FUNCTION mergejoin_is_patch(pg_catalog.jsonb) IS
  'whether a value is a merge patch for this extension: its numbers are whole, and it is not too deep';
COMMENT ON AGGREGATE mergejoin_agg(pg_catalog.json) IS
  'the join of the patches of a group; an error if two conflict';
COMMENT ON AGGREGATE mergejoin_agg(pg_catalog.jsonb) IS
  'the join of the patches of a group; an error if two conflict';
COMMENT ON AGGREGATE mergejoin_try_agg(pg_catalog.json) IS
  'the join of the patches of a group, or NULL if two conflict';
COMMENT ON AGGREGATE mergejoin_try_agg(pg_catalog.jsonb) IS
  'the join of the patches of a group, or NULL if two conflict';
COMMENT ON AGGREGATE mergejoin_conflict_agg(pg_catalog.json) IS
  'the first two patches of a group that conflict, in the order of the call, and where; or NULL';
COMMENT ON AGGREGATE mergejoin_conflict_agg(pg_catalog.jsonb) IS
  'the first two patches of a group that conflict, in the order of the call, and where; or NULL';
COMMENT ON AGGREGATE mergejoin_report_agg(pg_catalog.json) IS
  'the join of a group, its first conflict, or the first of its rows that is not a patch';
COMMENT ON AGGREGATE mergejoin_report_agg(pg_catalog.jsonb) IS
  'the join of a group, its first conflict, or the first of its rows that is not a patch';
COMMENT ON FUNCTION mergejoin_agg_take(pg_catalog.internal, pg_catalog.json) IS 'a part of the aggregates of mergejoin';
COMMENT ON FUNCTION mergejoin_agg_take(pg_catalog.internal, pg_catalog.jsonb) IS 'a part of the aggregates of mergejoin';
COMMENT ON FUNCTION mergejoin_agg_combine(pg_catalog.internal, pg_catalog.internal) IS 'a part of the aggregates of mergejoin';
COMMENT ON FUNCTION mergejoin_agg_serialize(pg_catalog.internal) IS 'a part of the aggregates of mergejoin';
COMMENT ON FUNCTION mergejoin_agg_deserialize(pg_catalog.bytea, pg_catalog.internal) IS 'a part of the aggregates of mergejoin';
COMMENT ON FUNCTION mergejoin_agg_final_json(pg_catalog.internal) IS 'a part of the aggregates of mergejoin';
COMMENT ON FUNCTION mergejoin_agg_final_jsonb(pg_catalog.internal) IS 'a part of the aggregates of mergejoin';
COMMENT ON FUNCTION mergejoin_try_agg_final_json(pg_catalog.internal) IS 'a part of the aggregates of mergejoin';
COMMENT ON FUNCTION mergejoin_try_agg_final_jsonb(pg_catalog.internal) IS 'a part of the aggregates of mergejoin';
COMMENT ON FUNCTION mergejoin_conflict_agg_final(pg_catalog.json[]) IS 'a part of the aggregates of mergejoin';
COMMENT ON FUNCTION mergejoin_report_agg_final(pg_catalog.json[]) IS 'a part of the aggregates of mergejoin';
COMMENT ON FUNCTION mergejoin_conflict_agg_final(pg_catalog.jsonb[]) IS 'a part of the aggregates of mergejoin';
COMMENT ON FUNCTION mergejoin_report_agg_final(pg_catalog.jsonb[]) IS 'a part of the aggregates of mergejoin';
