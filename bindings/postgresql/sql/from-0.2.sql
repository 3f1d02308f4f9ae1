-- What version 0.2 has by another name. All else of it has the same name, and is replaced.
ALTER AGGREGATE mergejoin_clash_agg(pg_catalog.json) RENAME TO mergejoin_conflict_agg;
ALTER FUNCTION mergejoin_clash_agg_final(pg_catalog.json[]) RENAME TO mergejoin_conflict_agg_final;

