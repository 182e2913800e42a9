SELECT v, v <@ '^1.2.3-beta.2 || 4' AS within, semver_range '^1.2.3-beta.2 || 4' @> v AS contains,
    semver_matches('^1.2.3-beta.2 || 4', v) AS matches, semver_matches('^1.2.3-beta.2 || 4', v::text) AS of_text
  FROM unnest('{1.2.3-beta.1, 1.2.3-beta.2, 1.2.3, 1.2.4-a, 1.9.0, 2.0.0-a, 4.1.0, 5.0.0}'::semver[]) v;
SELECT semver_matches('^1.2', '1.3.0-rc.1'), semver_matches('^1.2', '1.3.0-rc.1', true), semver_matches('~1.5', '1.5.1', false, 'strict'),
    semver_matches('1 || foo bar', '1.5.0'), semver_matches(NULL, '1.0.0'), semver_matches('1', NULL::semver);
SELECT semver_matches('1 || foo bar', '1.5.0', false, 'normalized');
SELECT semver_matches('latest', '1.0.0');
SELECT semver_matches('^1', '1.5');
SELECT semver_matches('^1', '1.5.0', grammar => 'x');
SELECT r, semver_matches(r, '1.5.1') FROM unnest('{^1, ^1, ~1.4, ^1}'::text[]) r;
SELECT semver_matches('~1', '1.5.1', grammar => g) FROM unnest('{npm, strict, normalized}'::text[]) g;
-- scans
SELECT * FROM semver_scans('^1.2.3-beta.2 || ^1.2.3-rc || 4');
SELECT * FROM semver_scans('^1.2 || 5', true);
SELECT * FROM semver_scans('~1', false, 'strict');
SELECT count(*) FROM semver_scans('>=2 <1');
SELECT collation_name FROM information_schema.domains WHERE domain_name = 'semver_sort_key';
-- a range that matches nothing gets one warning, also of a statement that parallel workers parse ranges for
CREATE TABLE texts AS SELECT '<0' AS range FROM generate_series(1, 20000);
ANALYZE texts;
SET parallel_setup_cost = 0;
SET parallel_tuple_cost = 0;
SET min_parallel_table_scan_size = 0;
SET max_parallel_workers_per_gather = 2;
EXPLAIN (COSTS OFF) SELECT count(*) FROM texts WHERE range::semver_range::text = '<0';
SELECT count(*), semver_range '<0' FROM texts WHERE range::semver_range::text = '<0';
RESET ALL;
DROP TABLE texts;
-- many alternatives, which are searched by halves
SELECT count(*) FILTER (WHERE ('1.' || n || '.0')::semver <@ r) AS matching, count(*) FILTER (WHERE ('1.' || n || '.1')::semver <@ r) AS others
  FROM generate_series(1, 999) n, (SELECT string_agg('1.' || n || '.0', ' || ')::semver_range AS r FROM generate_series(1, 999, 2) n) x;
