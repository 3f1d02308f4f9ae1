-- The functions and aggregates of the extension, over json and over jsonb.
\echo Use "CREATE EXTENSION mergejoin" to load this file. \quit

-- Over json. A text costs some microseconds to read, which COST tells the planner.

CREATE FUNCTION mergejoin_join(VARIADIC patches json[]) RETURNS json
  LANGUAGE C IMMUTABLE STRICT PARALLEL SAFE COST 100 AS 'MODULE_PATHNAME', 'sql_join';

CREATE FUNCTION mergejoin_replay(start json, VARIADIC patches json[]) RETURNS json
  LANGUAGE C IMMUTABLE STRICT PARALLEL SAFE COST 100 AS 'MODULE_PATHNAME', 'sql_replay';

CREATE FUNCTION mergejoin_merge(document json, VARIADIC patches json[]) RETURNS json
  LANGUAGE C IMMUTABLE STRICT PARALLEL SAFE COST 100 AS 'MODULE_PATHNAME', 'sql_merge';

CREATE FUNCTION mergejoin_rewrite(document json, patch json) RETURNS json
  LANGUAGE C IMMUTABLE STRICT PARALLEL SAFE COST 100 AS 'MODULE_PATHNAME', 'sql_rewrite';

CREATE FUNCTION mergejoin_patch(document json, operations json) RETURNS json
  LANGUAGE C IMMUTABLE STRICT PARALLEL SAFE COST 100 AS 'MODULE_PATHNAME', 'sql_patch';

CREATE FUNCTION mergejoin_get(document json, pointer text) RETURNS json
  LANGUAGE C IMMUTABLE STRICT PARALLEL SAFE COST 100 AS 'MODULE_PATHNAME', 'sql_get';

-- Over jsonb: of the text that a jsonb is written as.

CREATE FUNCTION mergejoin_join(VARIADIC patches jsonb[]) RETURNS jsonb
  LANGUAGE SQL IMMUTABLE STRICT PARALLEL SAFE COST 100
  RETURN mergejoin_join(VARIADIC patches::json[])::jsonb;

CREATE FUNCTION mergejoin_replay(start jsonb, VARIADIC patches jsonb[]) RETURNS jsonb
  LANGUAGE SQL IMMUTABLE STRICT PARALLEL SAFE COST 100
  RETURN mergejoin_replay(start::json, VARIADIC patches::json[])::jsonb;

CREATE FUNCTION mergejoin_merge(document jsonb, VARIADIC patches jsonb[]) RETURNS jsonb
  LANGUAGE SQL IMMUTABLE STRICT PARALLEL SAFE COST 100
  RETURN mergejoin_merge(document::json, VARIADIC patches::json[])::jsonb;

CREATE FUNCTION mergejoin_rewrite(document jsonb, patch jsonb) RETURNS jsonb
  LANGUAGE SQL IMMUTABLE STRICT PARALLEL SAFE COST 100
  RETURN mergejoin_rewrite(document::json, patch::json)::jsonb;

CREATE FUNCTION mergejoin_patch(document jsonb, operations jsonb) RETURNS jsonb
  LANGUAGE SQL IMMUTABLE STRICT PARALLEL SAFE COST 100
  RETURN mergejoin_patch(document::json, operations::json)::jsonb;

CREATE FUNCTION mergejoin_get(document jsonb, pointer text) RETURNS jsonb
  LANGUAGE SQL IMMUTABLE STRICT PARALLEL SAFE COST 100
  RETURN mergejoin_get(document::json, pointer)::jsonb;

-- What the aggregates are made of. A function with a state of type internal takes NULL where there is no state yet.

CREATE FUNCTION mergejoin_agg_take(internal, json) RETURNS internal
  LANGUAGE C IMMUTABLE PARALLEL SAFE COST 100 AS 'MODULE_PATHNAME', 'take_json';

CREATE FUNCTION mergejoin_agg_take(internal, jsonb) RETURNS internal
  LANGUAGE C IMMUTABLE PARALLEL SAFE COST 100 AS 'MODULE_PATHNAME', 'take_jsonb';

CREATE FUNCTION mergejoin_agg_combine(internal, internal) RETURNS internal
  LANGUAGE C IMMUTABLE PARALLEL SAFE COST 100 AS 'MODULE_PATHNAME', 'combine';

CREATE FUNCTION mergejoin_agg_serialize(internal) RETURNS bytea
  LANGUAGE C IMMUTABLE STRICT PARALLEL SAFE COST 100 AS 'MODULE_PATHNAME', 'serialize';

CREATE FUNCTION mergejoin_agg_deserialize(bytea, internal) RETURNS internal
  LANGUAGE C IMMUTABLE STRICT PARALLEL SAFE AS 'MODULE_PATHNAME', 'deserialize';

CREATE FUNCTION mergejoin_agg_final_json(internal) RETURNS json
  LANGUAGE C IMMUTABLE STRICT PARALLEL SAFE COST 100 AS 'MODULE_PATHNAME', 'joined_json';

CREATE FUNCTION mergejoin_agg_final_jsonb(internal) RETURNS jsonb
  LANGUAGE C IMMUTABLE STRICT PARALLEL SAFE COST 100 AS 'MODULE_PATHNAME', 'joined_jsonb';

CREATE FUNCTION mergejoin_try_agg_final_json(internal) RETURNS json
  LANGUAGE C IMMUTABLE STRICT PARALLEL SAFE COST 100 AS 'MODULE_PATHNAME', 'joined_or_null_json';

CREATE FUNCTION mergejoin_try_agg_final_jsonb(internal) RETURNS jsonb
  LANGUAGE C IMMUTABLE STRICT PARALLEL SAFE COST 100 AS 'MODULE_PATHNAME', 'joined_or_null_jsonb';

CREATE FUNCTION mergejoin_clash_agg_final(json[]) RETURNS json
  LANGUAGE C IMMUTABLE STRICT PARALLEL SAFE COST 100 AS 'MODULE_PATHNAME', 'first_clash';

-- The join of a group. A state has its join so far and at least 1 kB of texts.

CREATE AGGREGATE mergejoin_agg(json) (
  STYPE = internal, SSPACE = 2048, SFUNC = mergejoin_agg_take, FINALFUNC = mergejoin_agg_final_json,
  COMBINEFUNC = mergejoin_agg_combine, SERIALFUNC = mergejoin_agg_serialize,
  DESERIALFUNC = mergejoin_agg_deserialize, PARALLEL = SAFE);

CREATE AGGREGATE mergejoin_agg(jsonb) (
  STYPE = internal, SSPACE = 2048, SFUNC = mergejoin_agg_take, FINALFUNC = mergejoin_agg_final_jsonb,
  COMBINEFUNC = mergejoin_agg_combine, SERIALFUNC = mergejoin_agg_serialize,
  DESERIALFUNC = mergejoin_agg_deserialize, PARALLEL = SAFE);

-- The same, but NULL where two clash.

CREATE AGGREGATE mergejoin_try_agg(json) (
  STYPE = internal, SSPACE = 2048, SFUNC = mergejoin_agg_take, FINALFUNC = mergejoin_try_agg_final_json,
  COMBINEFUNC = mergejoin_agg_combine, SERIALFUNC = mergejoin_agg_serialize,
  DESERIALFUNC = mergejoin_agg_deserialize, PARALLEL = SAFE);

CREATE AGGREGATE mergejoin_try_agg(jsonb) (
  STYPE = internal, SSPACE = 2048, SFUNC = mergejoin_agg_take, FINALFUNC = mergejoin_try_agg_final_jsonb,
  COMBINEFUNC = mergejoin_agg_combine, SERIALFUNC = mergejoin_agg_serialize,
  DESERIALFUNC = mergejoin_agg_deserialize, PARALLEL = SAFE);

-- The first two patches of a group that clash, in the order of the call, and where. It keeps all of them.

CREATE AGGREGATE mergejoin_clash_agg(json) (
  STYPE = json[], SSPACE = 8192, SFUNC = array_append, FINALFUNC = mergejoin_clash_agg_final, PARALLEL = SAFE);
