-- precedence, and then the build
SELECT '1.0.0+a'::semver = '1.0.0+b' AS equal, '1.0.0+a'::semver < '1.0.0+b' AS below, semver_compare('1.0.0+a', '1.0.0+b'), '1.0.0+a'::semver #= '1.0.0+b' AS ties;
SELECT v FROM unnest('{1.10.0, 1.9.0, 1.9.0-rc.1, 1.9.0+b, 1.9.0+a.2, 1.9.0+a, 1.9.0+a.10, 1.0.0-9999999999, 1.0.0-a}'::semver[]) v ORDER BY v;
SELECT semver_compare('1.0.0', '1.0.0-9999999999'), semver_compare('1.2.3', '1.10.0'), semver_compare('2.0.0', '2.0.0');
SELECT max(v), min(v) FROM unnest('{1.10.0, 1.9.0, 2.0.0-a, 0.1.0+x}'::semver[]) v;
SELECT v, count(*) FROM unnest('{1.0.0+a, 1.0.0+b, 1.0.0+a}'::semver[]) v GROUP BY v ORDER BY v;
CREATE TEMPORARY TABLE versions(version semver UNIQUE);
INSERT INTO versions VALUES ('1.0.0+a'), ('1.0.0+b');
INSERT INTO versions VALUES ('v1.0.0+a');
CREATE INDEX ON versions(version semver_precedence_ops);
-- a bound is below each version of its key
SELECT '1.0.0'::semver > 'A1A0A0~'::semver_bound AS above, '1.0.0'::semver = 'A1A0A0~'::semver_bound AS equal, 'A1A0A0~'::semver_bound < '1.0.0+a'::semver AS below;
SELECT '0.9.9'::semver < 'A1A0A0~'::semver_bound AS below, '1.0.0-a'::semver >= 'A1A0A0-'::semver_bound AS above;
SELECT ''::semver_bound < '0.0.0-0'::semver AS below;
SELECT 'A1 A2'::semver_bound;
SELECT opcname, amname, amvalidate(c.oid) FROM pg_opclass c JOIN pg_am a ON a.oid = opcmethod WHERE opcname LIKE 'semver%' ORDER BY 1, 2;
-- joins by hash and by merge
SET enable_nestloop = off;
SET enable_mergejoin = off;
SELECT count(*) FROM unnest('{1.0.0, 1.0.0+a, 2.0.0}'::semver[]) v JOIN unnest('{1.0.0+a, 2.0.0, 2.0.0}'::semver[]) w ON v = w;
SET enable_mergejoin = on;
SET enable_hashjoin = off;
SELECT count(*) FROM unnest('{1.0.0, 1.0.0+a, 2.0.0}'::semver[]) v JOIN unnest('{1.0.0+a, 2.0.0, 2.0.0}'::semver[]) w ON v = w;
RESET ALL;
-- partitions by hash
CREATE TABLE hashed(version semver PRIMARY KEY) PARTITION BY HASH (version);
CREATE TABLE hashed_0 PARTITION OF hashed FOR VALUES WITH (MODULUS 2, REMAINDER 0);
CREATE TABLE hashed_1 PARTITION OF hashed FOR VALUES WITH (MODULUS 2, REMAINDER 1);
INSERT INTO hashed SELECT ('1.0.' || n || '+' || n % 3)::semver FROM generate_series(1, 100) n;
SELECT count(DISTINCT tableoid) AS partitions, count(*) FROM hashed;
SELECT * FROM hashed WHERE version = 'v1.0.7+1';
DROP TABLE hashed;
