\echo Use "CREATE EXTENSION rapidhash" to load this file. \quit

CREATE FUNCTION rapidhash_hex(hash bigint) RETURNS text
    AS 'MODULE_PATHNAME', 'sql_hex' LANGUAGE C IMMUTABLE STRICT PARALLEL SAFE;

CREATE FUNCTION rapidhash_agg_finish(internal) RETURNS bigint
    AS 'MODULE_PATHNAME', 'finish_agg' LANGUAGE C IMMUTABLE PARALLEL SAFE;

-- The hash of a key of several fields, of which NULL is one.
CREATE FUNCTION rapidhash_v3_key(VARIADIC fields "any") RETURNS bigint
    AS 'MODULE_PATHNAME', 'sql_v3_key' LANGUAGE C IMMUTABLE PARALLEL SAFE;
CREATE FUNCTION rapidhash_v3_key_with_seed(seed bigint, VARIADIC fields "any") RETURNS bigint
    AS 'MODULE_PATHNAME', 'sql_v3_key_with_seed' LANGUAGE C IMMUTABLE PARALLEL SAFE;
CREATE FUNCTION rapidhash_v3_key_with_secrets(number bigint, VARIADIC fields "any") RETURNS bigint
    AS 'MODULE_PATHNAME', 'sql_v3_key_with_secrets' LANGUAGE C IMMUTABLE PARALLEL SAFE;

-- A floating-point number is a field by its 64 bits.
CREATE FUNCTION rapidhash_float_bits(x double precision) RETURNS bigint
    AS 'MODULE_PATHNAME', 'sql_float_bits' LANGUAGE C IMMUTABLE STRICT PARALLEL SAFE;

-- What a hash decides. A fingerprint skips NULL, and is 0 of no rows.
CREATE FUNCTION rapidhash_shard(hash bigint, count bigint) RETURNS bigint
    AS 'MODULE_PATHNAME', 'sql_shard' LANGUAGE C IMMUTABLE STRICT PARALLEL SAFE;
CREATE FUNCTION rapidhash_first_hash(shard bigint, count bigint) RETURNS bigint
    AS 'MODULE_PATHNAME', 'sql_first_hash' LANGUAGE C IMMUTABLE STRICT PARALLEL SAFE;
CREATE FUNCTION rapidhash_bucket(hash bigint, count bigint) RETURNS bigint
    AS 'MODULE_PATHNAME', 'sql_bucket' LANGUAGE C IMMUTABLE STRICT PARALLEL SAFE;
CREATE FUNCTION rapidhash_fingerprint_add(fingerprint bigint, hash bigint) RETURNS bigint
    AS 'MODULE_PATHNAME', 'sql_fingerprint_add' LANGUAGE C IMMUTABLE STRICT PARALLEL SAFE;
CREATE FUNCTION rapidhash_fingerprint_remove(fingerprint bigint, hash bigint) RETURNS bigint
    AS 'MODULE_PATHNAME', 'sql_fingerprint_remove' LANGUAGE C IMMUTABLE STRICT PARALLEL SAFE;
CREATE AGGREGATE rapidhash_fingerprint(hash bigint) (
    SFUNC = rapidhash_fingerprint_add, STYPE = bigint, INITCOND = '0', COMBINEFUNC = rapidhash_fingerprint_add,
    MSFUNC = rapidhash_fingerprint_add, MINVFUNC = rapidhash_fingerprint_remove, MSTYPE = bigint, MINITCOND = '0',
    PARALLEL = SAFE);

-- For partitions by hash, and hash indexes.
CREATE FUNCTION rapidhash_v3_ops(text) RETURNS integer
    AS 'MODULE_PATHNAME', 'sql_v3_ops' LANGUAGE C IMMUTABLE STRICT PARALLEL SAFE;
CREATE FUNCTION rapidhash_v3_ops(text, seed bigint) RETURNS bigint
    AS 'MODULE_PATHNAME', 'sql_v3_ops_with_seed' LANGUAGE C IMMUTABLE STRICT PARALLEL SAFE;
CREATE OPERATOR CLASS rapidhash_v3_text_ops FOR TYPE text USING hash AS
    OPERATOR 1 =, FUNCTION 1 rapidhash_v3_ops(text), FUNCTION 2 rapidhash_v3_ops(text, bigint);
CREATE FUNCTION rapidhash_v3_ops(bytea) RETURNS integer
    AS 'MODULE_PATHNAME', 'sql_v3_ops' LANGUAGE C IMMUTABLE STRICT PARALLEL SAFE;
CREATE FUNCTION rapidhash_v3_ops(bytea, seed bigint) RETURNS bigint
    AS 'MODULE_PATHNAME', 'sql_v3_ops_with_seed' LANGUAGE C IMMUTABLE STRICT PARALLEL SAFE;
CREATE OPERATOR CLASS rapidhash_v3_bytea_ops FOR TYPE bytea USING hash AS
    OPERATOR 1 =, FUNCTION 1 rapidhash_v3_ops(bytea), FUNCTION 2 rapidhash_v3_ops(bytea, bigint);

-- Creates each version for bytea, text, and bigint: by default, with a seed, and with secrets made from a number. Those
-- that can be streamed are also aggregates. The script runs as a superuser, so each call names the schema of its
-- function: otherwise one that a user has created in the extension's schema could take its place.
DO $body$
DECLARE
    version text;
    type text;
    kind text;
    seed text;
    attributes text := 'AS ''MODULE_PATHNAME'', %L LANGUAGE C IMMUTABLE PARALLEL SAFE';
    returning_hash text := ' RETURNS bigint STRICT ' || attributes;
BEGIN
    FOREACH version IN ARRAY ARRAY['v1', 'v2_0', 'v2_1', 'v2_2', 'v3', 'v3_micro', 'v3_nano', 'v3_protected'] LOOP
        FOREACH type IN ARRAY ARRAY['bytea', 'text', 'bigint'] LOOP
            kind := CASE type WHEN 'bigint' THEN 'integer' ELSE 'bytes' END;
            EXECUTE pg_catalog.format('CREATE FUNCTION rapidhash_%s(%s)' || returning_hash,
                                      version, type, pg_catalog.format('sql_%s_%s', version, kind));
            EXECUTE pg_catalog.format('CREATE FUNCTION rapidhash_%s(%s, seed bigint)' || returning_hash,
                                      version, type, pg_catalog.format('sql_%s_with_seed_%s', version, kind));
            EXECUTE pg_catalog.format('CREATE FUNCTION rapidhash_%s_with_secrets(%s, number bigint)' || returning_hash,
                                      version, type, pg_catalog.format('sql_%s_with_secrets_%s', version, kind));
            CONTINUE WHEN version NOT IN ('v3', 'v3_micro', 'v3_nano');
            FOREACH seed IN ARRAY ARRAY['', ', seed bigint'] LOOP
                EXECUTE pg_catalog.format(
                    'CREATE FUNCTION rapidhash_%s_agg_row(internal, %s%s) RETURNS internal ' || attributes,
                    version, type, seed, pg_catalog.format('add_%s_%s', version, kind));
                EXECUTE pg_catalog.format(
                    'CREATE AGGREGATE rapidhash_%s_agg(%s%s) (SFUNC = rapidhash_%1$s_agg_row, STYPE = internal, '
                    'FINALFUNC = rapidhash_agg_finish, PARALLEL = SAFE)', version, type, seed);
            END LOOP;
        END LOOP;
    END LOOP;
END
$body$;
