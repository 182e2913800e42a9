-- Ranges are equal by what they say, whatever their strings; their order is the library's.
SELECT a, b, a = b AS equal, a <> b AS differ, a < b AS below, a <= b AS at_or_below, a > b AS above, a >= b AS at_or_above, semver_range_cmp(a, b) AS cmp,
    semver_range_hash(a) = semver_range_hash(b) AS hashes, semver_range_hash_extended(a, 1) = semver_range_hash_extended(b, 1) AS extended
  FROM (VALUES ('^1.2'::semver_range, '>=1.2.0 <2.0.0'::semver_range), ('1 || 2', '2 || 1'), ('>=2', '>=1'), ('<2', '<3'), ('*', ''), ('>1.0.0', '>=1.0.0'),
    ('~1.2.3 || 5', '>=1.2.3 <1.3.0||5.x'), ('1.2.3-a', '=1.2.3-a'), ('1.2.3+a', '1.2.3+b')) x(a, b);
-- Each of their comparisons may parse both.
SELECT amopopr::regoperator AS operator, procost FROM pg_amop JOIN pg_operator o ON o.oid = amopopr JOIN pg_proc p ON p.oid = oprcode
  WHERE amoplefttype = 'semver_range'::regtype AND amopmethod = (SELECT oid FROM pg_am WHERE amname = 'btree') ORDER BY amopstrategy;
SELECT procost FROM pg_proc WHERE oid = 'semver_range_ne'::regproc;
SELECT r FROM unnest('{<2, ^1, >=2, *, 1.x, 1.2.3, "1 || 2", "2 || 1"}'::semver_range[]) r ORDER BY r, r::text COLLATE "C";
SELECT ROW('^1'::semver_range) = ROW('1'::semver_range) AS rows_equal, '{^1}'::semver_range[] = '{1}'::semver_range[] AS arrays_equal;
-- all pairs of comparators: each way to find equal ones counts as many
SET client_min_messages = error;
CREATE TEMPORARY TABLE pairs AS
  WITH comparators AS (SELECT op || version AS c FROM unnest('{>,<,>=,"",^}'::text[]) op, unnest('{1,1.0.0,1.2.3-a,1.2.3+b,*}'::text[]) version)
  SELECT (one.c || sep || other.c)::semver_range AS r FROM comparators one, comparators other, unnest('{" "," || "}'::text[]) sep;
ANALYZE pairs;
SET enable_hashagg = off;
SELECT count(*), count(DISTINCT r) AS by_order, count(DISTINCT semver_canonical(r::text)) AS by_canonical,
    (SELECT count(*) FROM (SELECT r FROM pairs UNION SELECT r FROM pairs) u) AS by_sort FROM pairs;
RESET enable_hashagg;
SET enable_sort = off;
SELECT count(*) AS by_hash FROM (SELECT r FROM pairs GROUP BY r) g;
RESET enable_sort;
SET enable_nestloop = off;
SET enable_mergejoin = off;
EXPLAIN (COSTS OFF) SELECT count(*) FROM pairs one JOIN pairs other USING (r);
SELECT count(*) FROM pairs one JOIN pairs other USING (r);
SET enable_mergejoin = on;
SET enable_hashjoin = off;
EXPLAIN (COSTS OFF) SELECT count(*) FROM pairs one JOIN pairs other USING (r);
SELECT count(*) FROM pairs one JOIN pairs other USING (r);
RESET enable_nestloop;
RESET enable_hashjoin;
SELECT count(*) FROM pairs one, (SELECT r FROM pairs WHERE r::text LIKE '>1%' LIMIT 40) other
  WHERE (one.r = other.r) <> (semver_range_cmp(one.r, other.r) = 0) OR (one.r < other.r) <> (semver_range_cmp(one.r, other.r) < 0)
    OR semver_range_cmp(one.r, other.r) <> -semver_range_cmp(other.r, one.r) OR (one.r = other.r AND semver_range_hash(one.r) <> semver_range_hash(other.r))
    OR (one.r = other.r) = (one.r <> other.r);
-- A sort finds the order of each comparison: by the starts of ranges, which may differ late, and of strings of each length.
INSERT INTO pairs SELECT (start || ' ' || "end")::semver_range
  FROM unnest('{>=1.234567890.0, >=1.234567890.1, >1.234567890.0, >=18446744073709551615.0.0, ">=1.0.0-a", ">=1.0.0-b.1", "<0.0.0", ""}'::text[]) start,
    unnest('{"", "<2.345678901.0", "<=2.345678901.0", "<2.345678901.0 || 3", "<2.0.0+b", "<2.0.0+a"}'::text[]) "end";
INSERT INTO pairs SELECT ('>=1.0.0-' || repeat('a', 300) || n)::semver_range FROM generate_series(1, 20) n;
INSERT INTO pairs SELECT (n || ' || 1')::semver_range FROM generate_series(1, 2000) n;
SELECT count(*) > 2000 AS many, count(*) FILTER (WHERE semver_range_cmp(before, r) > 0) AS disordered FROM (SELECT r, lag(r) OVER (ORDER BY r) AS before FROM pairs) x;
SET work_mem = '64kB';
SELECT count(*) FILTER (WHERE semver_range_cmp(before, r) < 0) AS disordered FROM (SELECT r, lag(r) OVER (ORDER BY r DESC, r::text) AS before FROM pairs) x;
RESET work_mem;
-- indexes
CREATE INDEX by_order ON pairs(r);
CREATE INDEX by_hash ON pairs USING hash (r);
SET enable_seqscan = off;
SET enable_bitmapscan = off;
EXPLAIN (COSTS OFF) SELECT count(*) FROM pairs WHERE r = '>=1.0.0 <2.0.0';
SELECT count(*) FROM pairs WHERE r = '>=1.0.0 <2.0.0';
DROP INDEX by_hash;
EXPLAIN (COSTS OFF) SELECT count(*) FROM pairs WHERE r = '>=1.0.0 <2.0.0';
SELECT count(*) FROM pairs WHERE r = '>=1.0.0 <2.0.0';
CREATE TEMPORARY TABLE once(r semver_range UNIQUE);
INSERT INTO once VALUES ('^1.2');
INSERT INTO once VALUES ('>=1.2.0 <2.0.0');
RESET ALL;
-- versions by precedence: a join by hash, and by merge
SET enable_nestloop = off;
SET enable_mergejoin = off;
EXPLAIN (COSTS OFF) SELECT count(*) FROM unnest('{1.0.0, 1.0.0+a, 2.0.0}'::semver[]) v JOIN unnest('{1.0.0+b, 2.0.0, 2.0.0}'::semver[]) w ON v #= w;
SELECT count(*) FROM unnest('{1.0.0, 1.0.0+a, 2.0.0}'::semver[]) v JOIN unnest('{1.0.0+b, 2.0.0, 2.0.0}'::semver[]) w ON v #= w;
SET enable_mergejoin = on;
SET enable_hashjoin = off;
SELECT count(*) FROM unnest('{1.0.0, 1.0.0+a, 2.0.0}'::semver[]) v JOIN unnest('{1.0.0+b, 2.0.0, 2.0.0}'::semver[]) w ON v #= w;
RESET ALL;
SELECT semver_precedence_hash('1.0.0+a') = semver_precedence_hash('1.0.0+b') AS hashes,
    semver_precedence_hash_extended('1.0.0+a', 1) = semver_precedence_hash_extended('1.0.0+b', 1) AS extended, semver_hash('1.0.0+a') = semver_hash('1.0.0+b') AS of_all;
