CREATE EXTENSION deno_semver;
-- versions
SELECT v, semver_key(v), semver_is_pre(v)
  FROM unnest('{1.2.3, v1.2.3, =1.2.3, 1.10.0, 1.2.3-beta.2, 1.2.3-01, 1.0.0+a, 18446744073709551615.0.0}'::semver[]) v ORDER BY v, v::text;
SELECT '1.2'::semver;
SELECT '1.2.3.4'::semver;
SELECT '18446744073709551616.0.0'::semver;
SELECT ('1.0.0-' || repeat('a', 300))::semver;
SET deno_semver.max_length = 400;
-- no server takes less than semver_try
SELECT min_val, boot_val, max_val FROM pg_settings WHERE name = 'deno_semver.max_length';
SELECT semver_try('1.2'), semver_try('1.2.3'), semver_try(NULL), semver_try(repeat('1', 1000));
SELECT semver_try('1.0.0-' || repeat('a', 250)) IS NULL AS of_256, semver_try('1.0.0-' || repeat('a', 251)) IS NULL AS of_257;
-- ranges
SELECT '^1.2 || 3.x'::semver_range, semver_canonical('>=1.2.0 <2.0.0 || 3.x'), semver_canonical('latest'), semver_canonical('~1', 'strict');
SELECT '^1.2.3.4'::semver_range;
SELECT '>=1.2<2'::semver_range;
SELECT '>18446744073709551616'::semver_range;
SELECT 'latest'::semver_range;
SELECT '^1.2.3.4 || ^1.2.3.'::semver_range;
SELECT '<0.0.0'::semver_range;
SELECT semver_canonical('1', 'pnpm');
SELECT semver_canonical('1 2', 'strict');
SELECT ('1.0.0-' || repeat('a', 70000))::semver_range;
-- a warning once a statement
SELECT '<0.0.0'::semver_range, '<0'::semver_range, n, ('>=' || n || ' <0')::semver_range FROM generate_series(1, 2) n;
CREATE TEMPORARY TABLE none(range semver_range);
COPY none FROM stdin;
<0.0.0
<0
\.
SET client_min_messages = error;
COPY none FROM stdin;
<0.0.0
<0
\.
INSERT INTO none VALUES ('<0');
RESET client_min_messages;
-- casts in assignments, from strings and back
CREATE TEMPORARY TABLE texts AS SELECT '1.2.3'::text AS version, '^1'::text AS range;
CREATE TEMPORARY TABLE varchars AS SELECT '1.2.4'::varchar(20) AS version, '^1'::varchar AS range;
CREATE TEMPORARY TABLE typed(version semver, range semver_range);
INSERT INTO typed SELECT version, range FROM texts;
INSERT INTO typed SELECT version, range FROM varchars;
SELECT *, version <@ range AS matches FROM typed ORDER BY version;
INSERT INTO texts SELECT version, range FROM typed;
INSERT INTO varchars SELECT version, range FROM typed;
SELECT * FROM texts UNION ALL SELECT * FROM varchars ORDER BY 1;
SELECT semver_try('1.2.3'::varchar), '1.2.3'::varchar::semver, '1.2.3'::semver::varchar;
-- binary
SELECT semver_send('1.2.3-a+b'), semver_range_send('^1.2');
-- all has a comment, and may be called in parallel
SELECT pg_describe_object(classid, objid, 0) AS without_comment FROM pg_depend
  WHERE refclassid = 'pg_extension'::regclass AND refobjid = (SELECT oid FROM pg_extension WHERE extname = 'deno_semver') AND deptype = 'e'
    AND classid IN ('pg_proc'::regclass, 'pg_operator'::regclass, 'pg_type'::regclass, 'pg_opclass'::regclass)
    AND obj_description(objid, classid::regclass::name) IS NULL AND NOT EXISTS (SELECT FROM pg_type WHERE typarray = objid OR (oid = objid AND typname LIKE '\_%')) ORDER BY 1;
SELECT oid::regprocedure AS not_parallel FROM pg_proc WHERE proname LIKE 'semver%' AND (proparallel <> 's' OR NOT proisstrict);
