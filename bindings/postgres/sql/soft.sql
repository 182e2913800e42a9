-- Soft errors, of which 16 has the functions and 17 the option of COPY
SELECT current_setting('server_version_num')::int < 170000 AS is_older \gset
\if :is_older
\quit
\endif
SELECT s, t, pg_input_is_valid(s, t) FROM (VALUES ('1.2.3', 'semver'), ('1.2', 'semver'), ('^1.2', 'semver_range'), ('>=1.2<2', 'semver_range')) x(s, t);
\x on
SELECT * FROM pg_input_error_info('1.2.3.4', 'semver');
SELECT * FROM pg_input_error_info('1.0.0-' || repeat('a', 300), 'semver');
SELECT * FROM pg_input_error_info('{1.2.3, 1.2}', 'semver[]');
SELECT * FROM pg_input_error_info('>=1.2<2', 'semver_range');
SELECT * FROM pg_input_error_info('latest', 'semver_range');
\x off
SET client_min_messages = error;
CREATE TEMPORARY TABLE copied(version semver, range semver_range);
COPY copied FROM stdin (ON_ERROR ignore);
1.2.3	^1.2
1.2	^1.2
1.2.3	latest
1.2.3	^1.2.3.4
4.5.6	4 || 5
\.
SELECT * FROM copied;
