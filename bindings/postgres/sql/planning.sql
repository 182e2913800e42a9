CREATE TABLE versions(package text, version semver, written text) WITH (autovacuum_enabled = off);
INSERT INTO versions SELECT 'p' || i % 10, v::semver, v
  FROM generate_series(1, 5000) i,
    LATERAL (SELECT (i % 7) || '.' || (i % 5) || '.' || i % 50 || CASE WHEN i % 6 = 0 THEN '-a.' || i % 9 ELSE '' END AS v) x;
CREATE INDEX ON versions(version);
CREATE INDEX ON versions(package, version);
CREATE INDEX ON versions(semver_try(written));
ANALYZE versions;
SET enable_seqscan = off;
EXPLAIN (COSTS OFF) SELECT * FROM versions WHERE version <@ '~1.2.0';
EXPLAIN (COSTS OFF) SELECT * FROM versions WHERE semver_range '~1.2.0' @> version;
EXPLAIN (COSTS OFF) SELECT * FROM versions WHERE semver_try(written) <@ '~1.2.0';
EXPLAIN (COSTS OFF) SELECT * FROM versions WHERE version <@ '1.2.3 || ^5.1';
EXPLAIN (COSTS OFF) SELECT version FROM versions WHERE package = 'p3' AND version <@ '^1 || ^3' ORDER BY version DESC LIMIT 1;
EXPLAIN (COSTS OFF) SELECT * FROM (VALUES ('p3', '^1.2'::semver_range)) d(package, range),
  LATERAL (SELECT version FROM versions v WHERE v.package = d.package AND version <@ d.range ORDER BY version DESC LIMIT 1) x;
PREPARE matching(semver_range) AS SELECT count(*) FROM versions WHERE version <@ $1;
SET plan_cache_mode = force_generic_plan;
EXPLAIN (COSTS OFF) EXECUTE matching('^1 || ^3');
-- the ranges of an array, for which no index on the version is scanned, and the same as one range
SET enable_seqscan = on;
EXPLAIN (COSTS OFF) SELECT count(*) FROM versions WHERE version <@ ANY ('{1.2.3, ^5.1}'::semver_range[]);
SELECT count(*) FROM versions WHERE version <@ ANY ('{1.2.3, ^5.1}'::semver_range[]);
SELECT count(*) FROM versions WHERE version <@ '1.2.3 || ^5.1';
SET enable_seqscan = off;
-- a column of a domain
CREATE DOMAIN release AS semver CHECK (NOT semver_is_pre(VALUE));
CREATE TABLE releases AS SELECT version::release AS version FROM versions WHERE NOT semver_is_pre(version);
CREATE INDEX ON releases(version);
ANALYZE releases;
EXPLAIN (COSTS OFF) SELECT * FROM releases WHERE version <@ '~1.2.0';
EXPLAIN (COSTS OFF) SELECT * FROM releases WHERE version <@ '1.2.3 || ^5.1';
SELECT count(*) FROM releases WHERE version <@ '1.2.3 || ^5.1';
-- what costs or checks something is evaluated once, and a parameter is in no index
EXPLAIN (COSTS OFF) SELECT * FROM versions WHERE semver_try(written) <@ '1.2.3 || ^5.1';
SET enable_seqscan = on;
EXPLAIN (COSTS OFF) SELECT * FROM versions WHERE version::release <@ '1.2.3 || ^5.1';
SET enable_seqscan = off;
PREPARE within(semver) AS SELECT $1 <@ '1.2.3 || ^5.1';
EXPLAIN (VERBOSE, COSTS OFF) EXECUTE within('1.2.3');
-- an index by precedence
CREATE TABLE by_precedence AS SELECT version FROM versions;
CREATE INDEX ON by_precedence(version semver_precedence_ops);
EXPLAIN (COSTS OFF) SELECT * FROM by_precedence WHERE version <@ '~1.2.0';
EXPLAIN (COSTS OFF) SELECT * FROM by_precedence WHERE version <@ '1.2.3 || ^5.1';
EXPLAIN (COSTS OFF) SELECT * FROM (VALUES ('^1.2'::semver_range)) d(range) JOIN by_precedence ON version <@ d.range;
SELECT count(*) AS by_index FROM by_precedence WHERE version <@ '1.2.3 || ^5.1';
SELECT count(*) AS by_order FROM versions WHERE version <@ '1.2.3 || ^5.1';
DROP TABLE by_precedence;
-- more than 16 intervals, which are one scan
SELECT string_agg('0.' || n || '.1', ' || ') AS sixteen, string_agg('0.' || n || '.1', ' || ') || ' || 0.17.1' AS more FROM generate_series(1, 16) n \gset
CREATE FUNCTION scans_of(range semver_range) RETURNS bigint LANGUAGE plpgsql AS $$
DECLARE step text; count bigint = 0;
BEGIN
  FOR step IN EXECUTE format('EXPLAIN (COSTS OFF) SELECT * FROM versions WHERE version <@ %L', range) LOOP
    count = count + (step LIKE '%Index Scan%')::int;
  END LOOP;
  RETURN count;
END $$;
SELECT scans_of(:'sixteen') AS sixteen, scans_of(:'more') AS more;
DROP FUNCTION scans_of;
-- a partial index of a range with several alternatives
CREATE INDEX of_two ON versions(package) WHERE version <@ '^1 || ^3';
EXPLAIN (COSTS OFF) SELECT * FROM versions WHERE version <@ '^1 || ^3' AND package = 'p3';
DROP INDEX of_two;
-- partitions, of which alternatives prune some
SET enable_seqscan = on;
CREATE TABLE parted(version semver) PARTITION BY RANGE (version);
CREATE TABLE parted_1 PARTITION OF parted FOR VALUES FROM (MINVALUE) TO ('2.0.0-0');
CREATE TABLE parted_2 PARTITION OF parted FOR VALUES FROM ('2.0.0-0') TO ('3.0.0-0');
CREATE TABLE parted_3 PARTITION OF parted FOR VALUES FROM ('3.0.0-0') TO (MAXVALUE);
INSERT INTO parted VALUES ('1.5.0'), ('2.0.0-0'), ('2.5.0'), ('3.0.0-0'), ('3.0.0'), ('3.0.0+a');
EXPLAIN (COSTS OFF) SELECT * FROM parted WHERE version <@ '2.5 || =3.0.0';
SELECT tableoid::regclass, * FROM parted WHERE version <@ '2.5 || =3.0.0';
EXPLAIN (COSTS OFF) SELECT * FROM parted WHERE version <@ '^3';
DROP TABLE parted;
SET enable_seqscan = off;
-- how many rows are expected, and how many there are: within one bin of the histogram, too
RESET enable_seqscan;
CREATE TABLE many(version semver) WITH (autovacuum_enabled = off);
INSERT INTO many SELECT (n / 10000 || '.' || n / 100 % 100 || '.' || n % 100 || CASE n % 10 WHEN 0 THEN '-rc.1' ELSE '' END)::semver FROM generate_series(0, 19999) n;
INSERT INTO many SELECT '1.2.3' FROM generate_series(1, 500) n;
INSERT INTO many SELECT NULL FROM generate_series(1, 500) n;
ANALYZE many;
CREATE FUNCTION rows_of(query text) RETURNS float8[] LANGUAGE plpgsql AS $$
DECLARE plan json;
BEGIN
  EXECUTE 'EXPLAIN (ANALYZE, TIMING OFF, FORMAT JSON) SELECT * FROM many WHERE ' || query INTO plan;
  RETURN ARRAY[plan->0->'Plan'->>'Plan Rows', plan->0->'Plan'->>'Actual Rows'];
END $$;
CREATE FUNCTION is_near(found float8[]) RETURNS boolean LANGUAGE sql AS 'SELECT found[1] BETWEEN found[2] / 2 - 5 AND found[2] * 2 + 5';
SELECT condition, is_near(found), CASE WHEN NOT is_near(found) THEN found END AS found
  FROM unnest(ARRAY[$$version <@ '^1'$$, $$version <@ '~1.40.0'$$, $$version <@ '>=1.40.10 <1.40.30'$$, $$version <@ '>=0.9.50 <0.10.50'$$, $$'1.40.11' @> version$$,
    $$version <@ '1.2.3'$$, $$version <@ '~1.2'$$, $$version <@ '1.40.x || 0.3.5 - 0.3.25'$$, $$version <@ '1.40.11 || 0.3.5'$$, $$version <@ '>=1.40.10-rc.1 <1.40.11'$$,
    $$version <@ '*'$$, $$version <@ '>=3'$$, $$version <@ NULL$$, $$version >= 'A1A9A0~'::semver_bound$$, $$version < 'A1A9A0~'::semver_bound$$,
    $$'A1A9A0~'::semver_bound <= version$$, $$'A1A9A0~'::semver_bound > version$$, $$version < NULL::semver_bound$$]) condition, LATERAL rows_of(condition) found;
SET client_min_messages = error;
SELECT rows_of('version <@ ''<0.0.0''');
RESET client_min_messages;
-- versions of one release, which differ behind the numbers
CREATE TABLE canaries AS SELECT ('0.0.1-canary.' || n)::semver AS version FROM generate_series(1000, 20999) n;
ANALYZE canaries;
ALTER TABLE many RENAME TO others;
ALTER TABLE canaries RENAME TO many;
SELECT condition, is_near(found), CASE WHEN NOT is_near(found) THEN found END AS found
  FROM unnest(ARRAY[$$version <@ '>=0.0.1-canary.4000 <0.0.1-canary.4020'$$, $$version < semver_range_low('>=0.0.1-canary.4000')$$]) condition,
    LATERAL rows_of(condition) found;
DROP TABLE many;
-- what doesn't match, also of several intervals, which the planner has as NOT of each bound
CREATE TABLE many AS SELECT (n / 2000 || '.' || n / 20 % 100 || '.' || n % 20)::semver AS version FROM generate_series(0, 19999) n;
INSERT INTO many SELECT NULL FROM generate_series(1, 5000) n;
ANALYZE many;
SELECT condition, is_near(found), CASE WHEN NOT is_near(found) THEN found END AS found
  FROM unnest(ARRAY[$$NOT version <@ '^1'$$, $$NOT version <@ '1 || 3 || 5 || 7 || 9'$$, $$NOT '1 || 3 || 5 || 7 || 9' @> version$$, $$NOT version <@ '<9.50 || 9.51 - 10'$$,
    $$NOT version <@ '<5 || 6 - 10'$$, $$(version <@ '1 || 3') = false$$, $$(version <@ '1 || 3') IS NOT TRUE$$, $$NOT version <@ '1 || 3' AND version <@ '^3 || 4'$$,
    $$NOT (version <@ '1 || 3' OR version <@ '5 || 7')$$, $$NOT NOT version <@ '1 || 3'$$]) condition, LATERAL rows_of(condition) found;
UPDATE many SET version = (version || '-rc.1')::semver WHERE (split_part(version::text, '.', 2)::int + split_part(version::text, '.', 3)::int) % 7 = 3;
ANALYZE many;
SELECT condition, is_near(found), CASE WHEN NOT is_near(found) THEN found END AS found
  FROM unnest(ARRAY[$$NOT version <@ '<9.50 || 9.51 - 10'$$, $$NOT version <@ '<3.5 || >=3.6'$$]) condition, LATERAL rows_of(condition) found;
DROP TABLE many;
ALTER TABLE others RENAME TO many;
-- the same by the index, whose bounds know each other
CREATE INDEX ON many(version);
SET enable_seqscan = off;
SELECT condition, is_near(found)
  FROM unnest(ARRAY[$$version <@ '~1.40.0'$$, $$version <@ '1.40.x || 0.3.5 - 0.3.25'$$, $$version <@ '1.40.11 || 0.3.5'$$]) condition, LATERAL rows_of(condition) found;
-- without statistics, and of what isn't known
CREATE TABLE unknown(version semver, range semver_range) WITH (autovacuum_enabled = off);
INSERT INTO unknown SELECT version, '1' FROM many;
CREATE FUNCTION expected(condition text) RETURNS float8 LANGUAGE plpgsql AS $$
DECLARE plan json;
BEGIN
  EXECUTE 'EXPLAIN (FORMAT JSON) SELECT * FROM unknown WHERE ' || condition INTO plan;
  RETURN round((plan->0->'Plan'->>'Plan Rows')::numeric, -1);
END $$;
ANALYZE unknown(range);
SELECT condition, expected(condition)
  FROM unnest(ARRAY[$$version <@ '1.40.x'$$, $$version <@ range$$, $$range @> '2.0.0'$$, $$range @> '1.0.0'$$, $$version < semver_range_high(range)$$,
    $$version < 'A1A9A0~'::semver_bound$$, $$NOT version <@ '1.40.x || 3'$$]) condition;
DROP FUNCTION rows_of, is_near, expected;
DROP TABLE many, unknown;
-- who may not read each row learns nothing of the others: of a version that is hidden as many rows are expected as of one that isn't there
CREATE TABLE secret(tenant text, version semver) WITH (autovacuum_enabled = off);
INSERT INTO secret SELECT 'regress_tenant', ('1.' || n % 100 || '.0')::semver FROM generate_series(1, 5000) n;
INSERT INTO secret SELECT 'other', '4.13.37-acme' FROM generate_series(1, 5000) n;
INSERT INTO secret SELECT 'other', ('9.' || n || '.0')::semver FROM generate_series(1, 5000) n;
ANALYZE secret;
CREATE ROLE regress_tenant;
GRANT SELECT ON secret TO regress_tenant;
ALTER TABLE secret ENABLE ROW LEVEL SECURITY;
CREATE POLICY own ON secret USING (tenant = current_user);
CREATE FUNCTION expected(relation text, condition text) RETURNS float8 LANGUAGE plpgsql AS $$
DECLARE plan json;
BEGIN
  EXECUTE 'EXPLAIN (FORMAT JSON) SELECT * FROM ' || relation || ' WHERE ' || condition INTO plan;
  RETURN plan->0->'Plan'->>'Plan Rows';
END $$;
CREATE FUNCTION tells(hidden text, absent text) RETURNS boolean LANGUAGE sql AS $$SELECT expected('secret', hidden) <> expected('secret', absent)$$;
CREATE TABLE questions(hidden text, absent text);
INSERT INTO questions VALUES ($$version <@ '4.13.37-acme'$$, $$version <@ '4.13.38-acme'$$), ($$'4.13.37-acme' @> version$$, $$'4.13.38-acme' @> version$$),
  ($$version <@ '9'$$, $$version <@ '8'$$), ($$version <@ '4.13.37-acme || 9'$$, $$version <@ '4.13.38-acme || 8'$$),
  ($$NOT version <@ '4.13.37-acme || 9'$$, $$NOT version <@ '4.13.38-acme || 8'$$), ($$version >= semver_range_low('9')$$, $$version >= semver_range_low('10')$$),
  ($$semver_range_high('4') > version$$, $$semver_range_high('0') > version$$);
GRANT SELECT ON questions TO regress_tenant;
SELECT hidden, absent, tells(hidden, absent) FROM questions;
SET ROLE regress_tenant;
SELECT hidden, absent, tells(hidden, absent) FROM questions;
RESET ROLE;
-- and scans no index on the version
CREATE INDEX ON secret(version);
SET enable_seqscan = on;
EXPLAIN (COSTS OFF) SELECT * FROM secret WHERE version <@ '4.13';
SET ROLE regress_tenant;
EXPLAIN (COSTS OFF) SELECT * FROM secret WHERE version <@ '4.13';
RESET ROLE;
SET enable_seqscan = off;
DROP FUNCTION tells;
DROP TABLE secret, questions;
DROP ROLE regress_tenant;
-- of statistics with fewer numbers than values, as an import may leave them, only the values that have a number count
CREATE TABLE imported(version semver) WITH (autovacuum_enabled = off);
INSERT INTO imported SELECT ('1.' || n % 100 || '.0')::semver FROM generate_series(1, 10000) n;
ANALYZE imported;
UPDATE pg_statistic SET stanumbers1 = '{0.25}' WHERE starelid = 'imported'::regclass AND stakind1 = 1;
SELECT condition, expected('imported', condition) FROM unnest(ARRAY[$$version <@ '1'$$, $$version >= 'A1A0A0~'::semver_bound$$]) condition;
DROP FUNCTION expected;
DROP TABLE imported;
-- by each way the same rows
CREATE TABLE ranges(r semver_range);
INSERT INTO ranges VALUES ('1.2.3 || ^5.1'), ('^1 || ^3'), ('~1.2.0'), ('*'), ('>=1.2.0-a.1 <1.2.5 || 6.x'), ('>3'), ('<0.0.0'), ('<=2.1.1-a.3');
CREATE FUNCTION counts(how text) RETURNS TABLE(range text, by_constant bigint, by_parameter bigint, by_join bigint, by_scans bigint) LANGUAGE plpgsql AS $$
DECLARE it semver_range;
BEGIN
  EXECUTE how;
  FOR it IN SELECT r FROM ranges LOOP
    range := it::text;
    EXECUTE format('SELECT count(*) FROM versions WHERE version <@ %L::semver_range', it) INTO by_constant;
    EXECUTE format('EXECUTE matching(%L)', it) INTO by_parameter;
    SELECT count(*) INTO by_join FROM ranges JOIN versions ON version <@ r WHERE r::text = it::text;
    SELECT count(*) INTO by_scans FROM semver_scans(it) s JOIN versions v
      ON semver_is_pre(version) = s.is_pre AND semver_key(version) >= s.low AND semver_key(version) < s.high;
    RETURN NEXT;
  END LOOP;
END $$;
SET client_min_messages = error;
SELECT * FROM counts('SET enable_seqscan = off');
SELECT * FROM counts('SET enable_seqscan = on; SET enable_indexscan = off; SET enable_bitmapscan = off; SET enable_indexonlyscan = off');
-- of operators on other types, which have no versions to read
CREATE TABLE numbers AS SELECT n % 10 AS small, (n % 10)::bigint AS large FROM generate_series(1, 1000) n;
ANALYZE numbers;
CREATE FUNCTION always(int, semver_range) RETURNS boolean LANGUAGE plpgsql IMMUTABLE AS 'BEGIN RETURN true; END';
CREATE FUNCTION always(bigint, semver_bound) RETURNS boolean LANGUAGE plpgsql IMMUTABLE AS 'BEGIN RETURN true; END';
CREATE OPERATOR === (LEFTARG = int, RIGHTARG = semver_range, FUNCTION = always, RESTRICT = semver_within_sel);
CREATE OPERATOR === (LEFTARG = bigint, RIGHTARG = semver_bound, FUNCTION = always, RESTRICT = semver_bound_ltsel);
CREATE OPERATOR ==> (LEFTARG = bigint, RIGHTARG = semver_bound, FUNCTION = always, RESTRICT = semver_bound_gtsel);
SELECT count(*) FROM numbers WHERE small === '^1';
SELECT count(*) FROM numbers WHERE large === semver_range_low('^1') AND large ==> semver_range_high('^1');
DROP TABLE numbers;
-- in a schema that isn't searched
CREATE SCHEMA elsewhere;
ALTER EXTENSION deno_semver SET SCHEMA elsewhere;
RESET ALL;
SET client_min_messages = error;
SET enable_seqscan = off;
\pset format unaligned
EXPLAIN (COSTS OFF) SELECT * FROM versions WHERE version OPERATOR(elsewhere.<@) '1.2.3 || ^5.1';
EXPLAIN (COSTS OFF) SELECT * FROM (VALUES ('^1.2'::elsewhere.semver_range)) d(range) JOIN versions ON version OPERATOR(elsewhere.<@) d.range;
-- by one who may not use that schema
CREATE VIEW chosen AS SELECT count(*) FROM versions WHERE version OPERATOR(elsewhere.<@) '1.2.3 || ^5.1';
CREATE VIEW joined AS SELECT count(*) FROM (VALUES ('^1.2'::elsewhere.semver_range)) d(range), versions WHERE version OPERATOR(elsewhere.<@) d.range;
CREATE ROLE regress_deno_semver;
GRANT SELECT ON chosen, joined TO regress_deno_semver;
SET ROLE regress_deno_semver;
SELECT * FROM chosen, joined;
RESET ROLE;
DROP VIEW chosen, joined;
DROP ROLE regress_deno_semver;
DROP EXTENSION deno_semver CASCADE;
