-- Tests the installed extension: make installcheck. The hashes are those of the Rust crate.
CREATE EXTENSION rapidhash;
-- The functions and aggregates, by the types and names of their arguments.
\a
SELECT arguments, string_agg(proname, ' ' ORDER BY proname COLLATE "C") AS names
  FROM (SELECT proname, string_agg(pg_get_function_arguments(oid), '; ' ORDER BY pg_get_function_arguments(oid) COLLATE "C") AS arguments
    FROM pg_proc WHERE proname LIKE 'rapidhash%' GROUP BY proname) AS all_of_them
  GROUP BY arguments ORDER BY arguments COLLATE "C";
\a
-- Each type, and no other.
SELECT rapidhash_v3('hello') AS literal, rapidhash_v3('hello'::text) AS text, rapidhash_v3('\x68656c6c6f'::bytea) AS bytea;
SELECT rapidhash_v3('') AS text, rapidhash_v3(''::bytea) AS bytea, rapidhash_v3_agg(''::text) AS rows;
SELECT rapidhash_v3(42) AS integer, rapidhash_v3(42::bigint) AS bigint, rapidhash_v3((-42)::smallint) AS smallint;
SELECT rapidhash_v3(E'h\u00e9llo \u20ac\U0001F600') AS text, rapidhash_v3('hello'::char(7)) AS char;
SELECT rapidhash_v3(1.5);
SELECT rapidhash_v3(1.5::real);
-- A call with secrets requires their number.
SELECT rapidhash_v3_with_secrets('a');
-- Fields of a key, and what is none.
SELECT rapidhash_v3_key('user', 4711, NULL), rapidhash_v3_key_with_seed(7, 'user', 4711, NULL);
SELECT rapidhash_v3_key(true) = rapidhash_v3_key(1) AS boolean, rapidhash_v3_key('2024-02-29'::date) = rapidhash_v3_key(19782) AS date,
  rapidhash_v3_key('2024-02-29 12:34:56.789012+00'::timestamptz) = rapidhash_v3_key(1709210096789012) AS timestamptz,
  rapidhash_v3_key('00112233-4455-6677-8899-aabbccddeeff'::uuid) = rapidhash_v3_key('\x00112233445566778899aabbccddeeff'::bytea) AS uuid,
  rapidhash_v3_key(-1.50) = rapidhash_v3_key('-1.5') AS numeric, rapidhash_v3_key('[0:1]={7,NULL}'::int[]) = rapidhash_v3_key(2, 7, NULL) AS array,
  rapidhash_float_bits(-0.0) AS zero, rapidhash_float_bits(1.5) AS bits;
SELECT rapidhash_v3_key('a', 1.5::real);
SELECT rapidhash_v3_key('a', 'b'::char(3));
SELECT rapidhash_v3_key('a', '2024-02-29 12:34'::timestamp);
SELECT rapidhash_v3_key('a', '{{1,2}}'::int[]);
SELECT rapidhash_v3_key('a', 'infinity'::date);
SELECT rapidhash_v3_key(VARIADIC ARRAY[1, 2]);
-- NULL as any argument.
SELECT rapidhash_v3(NULL::text), rapidhash_v3('a', NULL), rapidhash_v3(NULL::text, 1), rapidhash_v3_with_secrets(1, NULL),
  rapidhash_hex(NULL);
-- Digits, with leading zeros and with the highest bit.
SELECT rapidhash_hex(hash) FROM (VALUES (3327445792987248966), (0), (4294967296), (-1), (-4611686018427387904)) AS t(hash);
-- An aggregate hashes its rows in their order and skips NULL. The seed is the same in every row, in all 64 bits.
CREATE TABLE words AS
  SELECT * FROM (VALUES (3, 'lo', 0), (1, 'hel', 0), (2, NULL, 0), (4, 'x', NULL)) AS t(place, word, seed);
SELECT rapidhash_v3_agg(word, seed ORDER BY place) AS hello, rapidhash_v3_agg(word) FILTER (WHERE word IS NULL) AS nulls,
  rapidhash_v3_agg(word) FILTER (WHERE false) AS no_rows FROM words;
SELECT rapidhash_v3_nano_agg(word, place::bigint << 32 ORDER BY place) FROM words;
-- An index of hashes.
CREATE INDEX ON words (rapidhash_v3(word, 1));
DROP TABLE words;
DROP EXTENSION rapidhash;
