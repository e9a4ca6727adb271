\echo Use "CREATE EXTENSION kohiblad_compat" to load this file. \quit

-- Functions of jsonb that take documents, so that queries on a jsonb column need no other names.

DO $$
BEGIN
    IF NOT EXISTS (SELECT FROM pg_extension WHERE extname = 'kohiblad'
            AND extnamespace = (SELECT oid FROM pg_namespace WHERE nspname = current_schema())) THEN
        RAISE 'kohiblad_compat must be in the schema of kohiblad'
            USING HINT = 'CREATE EXTENSION kohiblad_compat SCHEMA ...';
    END IF;
END $$;

-- Parts

CREATE FUNCTION jsonb_extract_path(from_json kohiblad, VARIADIC path_elems text[]) RETURNS kohiblad
AS 'MODULE_PATHNAME', 'pg_kohiblad_path' LANGUAGE C STRICT IMMUTABLE PARALLEL SAFE;

CREATE FUNCTION jsonb_extract_path_text(from_json kohiblad, VARIADIC path_elems text[]) RETURNS text
AS 'MODULE_PATHNAME', 'pg_kohiblad_path_text' LANGUAGE C STRICT IMMUTABLE PARALLEL SAFE;

CREATE FUNCTION jsonb_typeof(kohiblad) RETURNS text
AS 'MODULE_PATHNAME', 'pg_kohiblad_kind' LANGUAGE C STRICT IMMUTABLE PARALLEL SAFE;

CREATE FUNCTION jsonb_array_length(kohiblad) RETURNS int4
AS 'MODULE_PATHNAME', 'pg_kohiblad_array_length' LANGUAGE C STRICT IMMUTABLE PARALLEL SAFE;

CREATE FUNCTION jsonb_pretty(kohiblad) RETURNS text
AS 'MODULE_PATHNAME', 'pg_kohiblad_pretty' LANGUAGE C STRICT IMMUTABLE PARALLEL SAFE COST 10;

CREATE FUNCTION jsonb_object_keys(kohiblad) RETURNS SETOF text
AS 'MODULE_PATHNAME',
    'pg_kohiblad_object_keys' LANGUAGE C STRICT IMMUTABLE PARALLEL SAFE COST 10 ROWS 100;

CREATE FUNCTION jsonb_array_elements(from_json kohiblad, OUT value kohiblad) RETURNS SETOF kohiblad
AS 'MODULE_PATHNAME',
    'pg_kohiblad_array_elements' LANGUAGE C STRICT IMMUTABLE PARALLEL SAFE COST 10 ROWS 100;

CREATE FUNCTION jsonb_array_elements_text(from_json kohiblad, OUT value text) RETURNS SETOF text
AS 'MODULE_PATHNAME',
    'pg_kohiblad_array_elements_text' LANGUAGE C STRICT IMMUTABLE PARALLEL SAFE COST 10 ROWS 100;

CREATE FUNCTION jsonb_each(from_json kohiblad, OUT key text,
    OUT value kohiblad) RETURNS SETOF record
AS 'MODULE_PATHNAME', 'pg_kohiblad_each' LANGUAGE C STRICT IMMUTABLE PARALLEL SAFE COST 10 ROWS 100;

CREATE FUNCTION jsonb_each_text(from_json kohiblad, OUT key text,
    OUT value text) RETURNS SETOF record
AS 'MODULE_PATHNAME',
    'pg_kohiblad_each_text' LANGUAGE C STRICT IMMUTABLE PARALLEL SAFE COST 10 ROWS 100;

-- Changed copies

CREATE FUNCTION jsonb_set(jsonb_in kohiblad, path text[], replacement kohiblad,
    create_if_missing bool DEFAULT true) RETURNS kohiblad
AS 'MODULE_PATHNAME', 'pg_kohiblad_set' LANGUAGE C STRICT IMMUTABLE PARALLEL SAFE COST 10;

CREATE FUNCTION jsonb_set_lax(jsonb_in kohiblad, path text[], replacement kohiblad,
    create_if_missing bool DEFAULT true,
    null_value_treatment text DEFAULT 'use_json_null') RETURNS kohiblad
AS 'MODULE_PATHNAME', 'pg_kohiblad_set_lax' LANGUAGE C IMMUTABLE PARALLEL SAFE COST 10;

CREATE FUNCTION jsonb_insert(jsonb_in kohiblad, path text[], replacement kohiblad,
    insert_after bool DEFAULT false) RETURNS kohiblad
AS 'MODULE_PATHNAME', 'pg_kohiblad_insert' LANGUAGE C STRICT IMMUTABLE PARALLEL SAFE COST 10;

CREATE FUNCTION jsonb_strip_nulls(kohiblad) RETURNS kohiblad
AS 'MODULE_PATHNAME', 'pg_kohiblad_strip_nulls' LANGUAGE C STRICT IMMUTABLE PARALLEL SAFE COST 10;

CREATE FUNCTION jsonb_concat(kohiblad, kohiblad) RETURNS kohiblad
AS 'MODULE_PATHNAME', 'pg_kohiblad_concat' LANGUAGE C STRICT IMMUTABLE PARALLEL SAFE COST 10;

CREATE FUNCTION jsonb_delete(kohiblad, text) RETURNS kohiblad
AS 'MODULE_PATHNAME', 'pg_kohiblad_delete' LANGUAGE C STRICT IMMUTABLE PARALLEL SAFE COST 10;

CREATE FUNCTION jsonb_delete(kohiblad, int4) RETURNS kohiblad
AS 'MODULE_PATHNAME', 'pg_kohiblad_delete_index' LANGUAGE C STRICT IMMUTABLE PARALLEL SAFE COST 10;

CREATE FUNCTION jsonb_delete(from_json kohiblad, VARIADIC path_elems text[]) RETURNS kohiblad
AS 'MODULE_PATHNAME', 'pg_kohiblad_delete_array' LANGUAGE C STRICT IMMUTABLE PARALLEL SAFE COST 10;

CREATE FUNCTION jsonb_delete_path(kohiblad, text[]) RETURNS kohiblad
AS 'MODULE_PATHNAME', 'pg_kohiblad_delete_path' LANGUAGE C STRICT IMMUTABLE PARALLEL SAFE COST 10;

-- Containment, and keys that exist

CREATE FUNCTION jsonb_contains(kohiblad, kohiblad) RETURNS bool
AS 'MODULE_PATHNAME', 'pg_kohiblad_contains' LANGUAGE C STRICT IMMUTABLE PARALLEL SAFE COST 10;

CREATE FUNCTION jsonb_contained(kohiblad, kohiblad) RETURNS bool
AS 'MODULE_PATHNAME', 'pg_kohiblad_contained' LANGUAGE C STRICT IMMUTABLE PARALLEL SAFE COST 10;

CREATE FUNCTION jsonb_exists(kohiblad, text) RETURNS bool
AS 'MODULE_PATHNAME', 'pg_kohiblad_exists' LANGUAGE C STRICT IMMUTABLE PARALLEL SAFE;

CREATE FUNCTION jsonb_exists_any(kohiblad, text[]) RETURNS bool
AS 'MODULE_PATHNAME', 'pg_kohiblad_exists_any' LANGUAGE C STRICT IMMUTABLE PARALLEL SAFE;

CREATE FUNCTION jsonb_exists_all(kohiblad, text[]) RETURNS bool
AS 'MODULE_PATHNAME', 'pg_kohiblad_exists_all' LANGUAGE C STRICT IMMUTABLE PARALLEL SAFE;

-- Paths of SQL/JSON

CREATE FUNCTION jsonb_path_exists(target kohiblad, path jsonpath, vars kohiblad DEFAULT '{}',
    silent bool DEFAULT false) RETURNS bool
AS 'MODULE_PATHNAME', 'pg_kohiblad_path_exists' LANGUAGE C STRICT IMMUTABLE PARALLEL SAFE COST 20;

CREATE FUNCTION jsonb_path_exists_tz(target kohiblad, path jsonpath, vars kohiblad DEFAULT '{}',
    silent bool DEFAULT false) RETURNS bool
AS 'MODULE_PATHNAME', 'pg_kohiblad_path_exists_tz' LANGUAGE C STRICT STABLE PARALLEL SAFE COST 20;

CREATE FUNCTION jsonb_path_match(target kohiblad, path jsonpath, vars kohiblad DEFAULT '{}',
    silent bool DEFAULT false) RETURNS bool
AS 'MODULE_PATHNAME', 'pg_kohiblad_path_match' LANGUAGE C STRICT IMMUTABLE PARALLEL SAFE COST 20;

CREATE FUNCTION jsonb_path_match_tz(target kohiblad, path jsonpath, vars kohiblad DEFAULT '{}',
    silent bool DEFAULT false) RETURNS bool
AS 'MODULE_PATHNAME', 'pg_kohiblad_path_match_tz' LANGUAGE C STRICT STABLE PARALLEL SAFE COST 20;

CREATE FUNCTION jsonb_path_query(target kohiblad, path jsonpath, vars kohiblad DEFAULT '{}',
    silent bool DEFAULT false) RETURNS SETOF kohiblad
AS 'MODULE_PATHNAME', 'pg_kohiblad_path_query' LANGUAGE C STRICT IMMUTABLE PARALLEL SAFE COST 20;

CREATE FUNCTION jsonb_path_query_tz(target kohiblad, path jsonpath, vars kohiblad DEFAULT '{}',
    silent bool DEFAULT false) RETURNS SETOF kohiblad
AS 'MODULE_PATHNAME', 'pg_kohiblad_path_query_tz' LANGUAGE C STRICT STABLE PARALLEL SAFE COST 20;

CREATE FUNCTION jsonb_path_query_array(target kohiblad, path jsonpath, vars kohiblad DEFAULT '{}',
    silent bool DEFAULT false) RETURNS kohiblad
AS 'MODULE_PATHNAME',
    'pg_kohiblad_path_query_array' LANGUAGE C STRICT IMMUTABLE PARALLEL SAFE COST 20;

CREATE FUNCTION jsonb_path_query_array_tz(target kohiblad, path jsonpath,
    vars kohiblad DEFAULT '{}', silent bool DEFAULT false) RETURNS kohiblad
AS 'MODULE_PATHNAME',
    'pg_kohiblad_path_query_array_tz' LANGUAGE C STRICT STABLE PARALLEL SAFE COST 20;

CREATE FUNCTION jsonb_path_query_first(target kohiblad, path jsonpath, vars kohiblad DEFAULT '{}',
    silent bool DEFAULT false) RETURNS kohiblad
AS 'MODULE_PATHNAME',
    'pg_kohiblad_path_query_first' LANGUAGE C STRICT IMMUTABLE PARALLEL SAFE COST 20;

CREATE FUNCTION jsonb_path_query_first_tz(target kohiblad, path jsonpath,
    vars kohiblad DEFAULT '{}', silent bool DEFAULT false) RETURNS kohiblad
AS 'MODULE_PATHNAME',
    'pg_kohiblad_path_query_first_tz' LANGUAGE C STRICT STABLE PARALLEL SAFE COST 20;

-- Records

CREATE FUNCTION jsonb_populate_record(base anyelement, from_json kohiblad) RETURNS anyelement
AS 'MODULE_PATHNAME', 'pg_kohiblad_populate_record' LANGUAGE C STABLE PARALLEL SAFE COST 10;

CREATE FUNCTION jsonb_populate_recordset(base anyelement,
    from_json kohiblad) RETURNS SETOF anyelement
AS 'MODULE_PATHNAME',
    'pg_kohiblad_populate_recordset' LANGUAGE C STABLE PARALLEL SAFE COST 10 ROWS 100;

CREATE FUNCTION jsonb_to_record(kohiblad) RETURNS record
AS 'MODULE_PATHNAME', 'pg_kohiblad_to_record' LANGUAGE C STRICT STABLE PARALLEL SAFE COST 10;

CREATE FUNCTION jsonb_to_recordset(kohiblad) RETURNS SETOF record
AS 'MODULE_PATHNAME',
    'pg_kohiblad_to_recordset' LANGUAGE C STRICT STABLE PARALLEL SAFE COST 10 ROWS 100;

-- Full text search

CREATE FUNCTION jsonb_to_tsvector(kohiblad, kohiblad) RETURNS tsvector
LANGUAGE sql STRICT STABLE PARALLEL SAFE
RETURN kohiblad_to_tsvector($1, $2);

CREATE FUNCTION jsonb_to_tsvector(regconfig, kohiblad, kohiblad) RETURNS tsvector
LANGUAGE sql STRICT IMMUTABLE PARALLEL SAFE
RETURN kohiblad_to_tsvector($1, $2, $3);

-- A literal or parameter without a type meant jsonb while there was one function of a name. Among
-- several the server takes the one that takes a text, and these do what it did before.

CREATE FUNCTION jsonb_extract_path(from_json text, VARIADIC path_elems text[]) RETURNS jsonb
LANGUAGE sql STRICT IMMUTABLE PARALLEL SAFE
RETURN jsonb_extract_path($1::jsonb, VARIADIC $2);

CREATE FUNCTION jsonb_extract_path_text(from_json text, VARIADIC path_elems text[]) RETURNS text
LANGUAGE sql STRICT IMMUTABLE PARALLEL SAFE
RETURN jsonb_extract_path_text($1::jsonb, VARIADIC $2);

CREATE FUNCTION jsonb_typeof(text) RETURNS text
LANGUAGE sql STRICT IMMUTABLE PARALLEL SAFE
RETURN jsonb_typeof($1::jsonb);

CREATE FUNCTION jsonb_array_length(text) RETURNS int4
LANGUAGE sql STRICT IMMUTABLE PARALLEL SAFE
RETURN jsonb_array_length($1::jsonb);

CREATE FUNCTION jsonb_pretty(text) RETURNS text
LANGUAGE sql STRICT IMMUTABLE PARALLEL SAFE
RETURN jsonb_pretty($1::jsonb);

CREATE FUNCTION jsonb_object_keys(text) RETURNS SETOF text
LANGUAGE sql IMMUTABLE PARALLEL SAFE ROWS 100
BEGIN ATOMIC
    SELECT jsonb_object_keys($1::jsonb);
END;

CREATE FUNCTION jsonb_array_elements(from_json text, OUT value jsonb) RETURNS SETOF jsonb
LANGUAGE sql IMMUTABLE PARALLEL SAFE ROWS 100
BEGIN ATOMIC
    SELECT jsonb_array_elements($1::jsonb);
END;

CREATE FUNCTION jsonb_array_elements_text(from_json text, OUT value text) RETURNS SETOF text
LANGUAGE sql IMMUTABLE PARALLEL SAFE ROWS 100
BEGIN ATOMIC
    SELECT jsonb_array_elements_text($1::jsonb);
END;

CREATE FUNCTION jsonb_each(from_json text, OUT key text, OUT value jsonb) RETURNS SETOF record
LANGUAGE sql IMMUTABLE PARALLEL SAFE ROWS 100
BEGIN ATOMIC
    SELECT * FROM jsonb_each($1::jsonb);
END;

CREATE FUNCTION jsonb_each_text(from_json text, OUT key text, OUT value text) RETURNS SETOF record
LANGUAGE sql IMMUTABLE PARALLEL SAFE ROWS 100
BEGIN ATOMIC
    SELECT * FROM jsonb_each_text($1::jsonb);
END;

CREATE FUNCTION jsonb_set(jsonb_in text, path text[], replacement jsonb,
    create_if_missing bool DEFAULT true) RETURNS jsonb
LANGUAGE sql STRICT IMMUTABLE PARALLEL SAFE
RETURN jsonb_set($1::jsonb, $2, $3, $4);

CREATE FUNCTION jsonb_set_lax(jsonb_in text, path text[], replacement jsonb,
    create_if_missing bool DEFAULT true,
    null_value_treatment text DEFAULT 'use_json_null') RETURNS jsonb
LANGUAGE sql IMMUTABLE PARALLEL SAFE
RETURN jsonb_set_lax($1::jsonb, $2, $3, $4, $5);

CREATE FUNCTION jsonb_insert(jsonb_in text, path text[], replacement jsonb,
    insert_after bool DEFAULT false) RETURNS jsonb
LANGUAGE sql STRICT IMMUTABLE PARALLEL SAFE
RETURN jsonb_insert($1::jsonb, $2, $3, $4);

CREATE FUNCTION jsonb_strip_nulls(text) RETURNS jsonb
LANGUAGE sql STRICT IMMUTABLE PARALLEL SAFE
RETURN jsonb_strip_nulls($1::jsonb);

CREATE FUNCTION jsonb_concat(text, jsonb) RETURNS jsonb
LANGUAGE sql STRICT IMMUTABLE PARALLEL SAFE
RETURN jsonb_concat($1::jsonb, $2);

CREATE FUNCTION jsonb_delete(text, text) RETURNS jsonb
LANGUAGE sql STRICT IMMUTABLE PARALLEL SAFE
RETURN jsonb_delete($1::jsonb, $2);

CREATE FUNCTION jsonb_delete(text, int4) RETURNS jsonb
LANGUAGE sql STRICT IMMUTABLE PARALLEL SAFE
RETURN jsonb_delete($1::jsonb, $2);

CREATE FUNCTION jsonb_delete(from_json text, VARIADIC path_elems text[]) RETURNS jsonb
LANGUAGE sql STRICT IMMUTABLE PARALLEL SAFE
RETURN jsonb_delete($1::jsonb, VARIADIC $2);

CREATE FUNCTION jsonb_delete_path(text, text[]) RETURNS jsonb
LANGUAGE sql STRICT IMMUTABLE PARALLEL SAFE
RETURN jsonb_delete_path($1::jsonb, $2);

CREATE FUNCTION jsonb_contains(text, jsonb) RETURNS bool
LANGUAGE sql STRICT IMMUTABLE PARALLEL SAFE
RETURN jsonb_contains($1::jsonb, $2);

CREATE FUNCTION jsonb_contained(text, jsonb) RETURNS bool
LANGUAGE sql STRICT IMMUTABLE PARALLEL SAFE
RETURN jsonb_contained($1::jsonb, $2);

CREATE FUNCTION jsonb_exists(text, text) RETURNS bool
LANGUAGE sql STRICT IMMUTABLE PARALLEL SAFE
RETURN jsonb_exists($1::jsonb, $2);

CREATE FUNCTION jsonb_exists_any(text, text[]) RETURNS bool
LANGUAGE sql STRICT IMMUTABLE PARALLEL SAFE
RETURN jsonb_exists_any($1::jsonb, $2);

CREATE FUNCTION jsonb_exists_all(text, text[]) RETURNS bool
LANGUAGE sql STRICT IMMUTABLE PARALLEL SAFE
RETURN jsonb_exists_all($1::jsonb, $2);

CREATE FUNCTION jsonb_path_exists(target text, path jsonpath, vars jsonb DEFAULT '{}',
    silent bool DEFAULT false) RETURNS bool
LANGUAGE sql STRICT IMMUTABLE PARALLEL SAFE
RETURN jsonb_path_exists($1::jsonb, $2, $3, $4);

CREATE FUNCTION jsonb_path_exists_tz(target text, path jsonpath, vars jsonb DEFAULT '{}',
    silent bool DEFAULT false) RETURNS bool
LANGUAGE sql STRICT STABLE PARALLEL SAFE
RETURN jsonb_path_exists_tz($1::jsonb, $2, $3, $4);

CREATE FUNCTION jsonb_path_match(target text, path jsonpath, vars jsonb DEFAULT '{}',
    silent bool DEFAULT false) RETURNS bool
LANGUAGE sql STRICT IMMUTABLE PARALLEL SAFE
RETURN jsonb_path_match($1::jsonb, $2, $3, $4);

CREATE FUNCTION jsonb_path_match_tz(target text, path jsonpath, vars jsonb DEFAULT '{}',
    silent bool DEFAULT false) RETURNS bool
LANGUAGE sql STRICT STABLE PARALLEL SAFE
RETURN jsonb_path_match_tz($1::jsonb, $2, $3, $4);

CREATE FUNCTION jsonb_path_query(target text, path jsonpath, vars jsonb DEFAULT '{}',
    silent bool DEFAULT false) RETURNS SETOF jsonb
LANGUAGE sql IMMUTABLE PARALLEL SAFE
BEGIN ATOMIC
    SELECT jsonb_path_query($1::jsonb, $2, $3, $4);
END;

CREATE FUNCTION jsonb_path_query_tz(target text, path jsonpath, vars jsonb DEFAULT '{}',
    silent bool DEFAULT false) RETURNS SETOF jsonb
LANGUAGE sql STABLE PARALLEL SAFE
BEGIN ATOMIC
    SELECT jsonb_path_query_tz($1::jsonb, $2, $3, $4);
END;

CREATE FUNCTION jsonb_path_query_array(target text, path jsonpath, vars jsonb DEFAULT '{}',
    silent bool DEFAULT false) RETURNS jsonb
LANGUAGE sql STRICT IMMUTABLE PARALLEL SAFE
RETURN jsonb_path_query_array($1::jsonb, $2, $3, $4);

CREATE FUNCTION jsonb_path_query_array_tz(target text, path jsonpath, vars jsonb DEFAULT '{}',
    silent bool DEFAULT false) RETURNS jsonb
LANGUAGE sql STRICT STABLE PARALLEL SAFE
RETURN jsonb_path_query_array_tz($1::jsonb, $2, $3, $4);

CREATE FUNCTION jsonb_path_query_first(target text, path jsonpath, vars jsonb DEFAULT '{}',
    silent bool DEFAULT false) RETURNS jsonb
LANGUAGE sql STRICT IMMUTABLE PARALLEL SAFE
RETURN jsonb_path_query_first($1::jsonb, $2, $3, $4);

CREATE FUNCTION jsonb_path_query_first_tz(target text, path jsonpath, vars jsonb DEFAULT '{}',
    silent bool DEFAULT false) RETURNS jsonb
LANGUAGE sql STRICT STABLE PARALLEL SAFE
RETURN jsonb_path_query_first_tz($1::jsonb, $2, $3, $4);

CREATE FUNCTION jsonb_populate_record(base anyelement, from_json text) RETURNS anyelement
AS 'MODULE_PATHNAME',
    'pg_jsonb_populate_record_of_text' LANGUAGE C STABLE PARALLEL SAFE;

CREATE FUNCTION jsonb_populate_recordset(base anyelement, from_json text) RETURNS SETOF anyelement
AS 'MODULE_PATHNAME',
    'pg_jsonb_populate_recordset_of_text' LANGUAGE C STABLE PARALLEL SAFE ROWS 100;

CREATE FUNCTION jsonb_to_record(text) RETURNS record
AS 'MODULE_PATHNAME',
    'pg_jsonb_to_record_of_text' LANGUAGE C STRICT STABLE PARALLEL SAFE;

CREATE FUNCTION jsonb_to_recordset(text) RETURNS SETOF record
AS 'MODULE_PATHNAME',
    'pg_jsonb_to_recordset_of_text' LANGUAGE C STRICT STABLE PARALLEL SAFE ROWS 100;

CREATE FUNCTION jsonb_to_tsvector(text, jsonb) RETURNS tsvector
LANGUAGE sql STRICT STABLE PARALLEL SAFE
RETURN jsonb_to_tsvector($1::jsonb, $2);

CREATE FUNCTION jsonb_to_tsvector(regconfig, text, jsonb) RETURNS tsvector
LANGUAGE sql STRICT IMMUTABLE PARALLEL SAFE
RETURN jsonb_to_tsvector($1, $2::jsonb, $3);
