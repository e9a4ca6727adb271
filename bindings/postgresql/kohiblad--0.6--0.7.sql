\echo Use "ALTER EXTENSION kohiblad UPDATE" to load this file. \quit

-- Costs. Most functions read a few words of a document, and keep the cost 1 of jsonb's functions.
-- These read all of it or write one, which takes 5 to 15 times as long in rows of 130 bytes, and
-- more in larger ones: the planner tests cheaper conditions first.

ALTER FUNCTION kohiblad_in(cstring) COST 10;
ALTER FUNCTION kohiblad_out(kohiblad) COST 10;
ALTER FUNCTION kohiblad_recv(internal) COST 10;
ALTER FUNCTION kohiblad(bytea) COST 10;
ALTER FUNCTION kohiblad_each(kohiblad) COST 10;
ALTER FUNCTION kohiblad_canonical(kohiblad) COST 10;
ALTER FUNCTION kohiblad_pretty(kohiblad) COST 10;
ALTER FUNCTION kohiblad_key(kohiblad) COST 10;
ALTER FUNCTION kohiblad_hash(kohiblad) COST 10;
ALTER FUNCTION kohiblad_hash_extended(kohiblad, int8) COST 10;

-- Casts. The server's JSON functions put a document into their result by a cast that is a function.

CREATE FUNCTION kohiblad_to_json(kohiblad) RETURNS json
AS 'MODULE_PATHNAME', 'pg_kohiblad_to_json' LANGUAGE C STRICT IMMUTABLE PARALLEL SAFE COST 10;

CREATE FUNCTION kohiblad_to_jsonb(kohiblad) RETURNS jsonb
AS 'MODULE_PATHNAME', 'pg_kohiblad_to_jsonb' LANGUAGE C STRICT IMMUTABLE PARALLEL SAFE COST 10;

DROP CAST (kohiblad AS json);
DROP CAST (kohiblad AS jsonb);
CREATE CAST (kohiblad AS json) WITH FUNCTION kohiblad_to_json(kohiblad) AS ASSIGNMENT;
CREATE CAST (kohiblad AS jsonb) WITH FUNCTION kohiblad_to_jsonb(kohiblad) AS ASSIGNMENT;

-- A jsonb is taken wherever a document is, as in doc @> jsonb_build_object(..) and coalesce(doc,
-- '{}'::jsonb): of two types the server chooses the one that the other is cast to without asking.

DROP CAST (jsonb AS kohiblad);
CREATE CAST (jsonb AS kohiblad) WITH INOUT AS IMPLICIT;

-- To scalars, by explicit casts alone, as jsonb has them. The text of a string is had by #>> '{}':
-- a cast to text is the text of the document, with quotes.

CREATE FUNCTION kohiblad_to_numeric(kohiblad) RETURNS numeric
AS 'MODULE_PATHNAME', 'pg_kohiblad_to_numeric' LANGUAGE C STRICT IMMUTABLE PARALLEL SAFE;

CREATE FUNCTION kohiblad_to_int2(kohiblad) RETURNS int2
AS 'MODULE_PATHNAME', 'pg_kohiblad_to_int2' LANGUAGE C STRICT IMMUTABLE PARALLEL SAFE;

CREATE FUNCTION kohiblad_to_int4(kohiblad) RETURNS int4
AS 'MODULE_PATHNAME', 'pg_kohiblad_to_int4' LANGUAGE C STRICT IMMUTABLE PARALLEL SAFE;

CREATE FUNCTION kohiblad_to_int8(kohiblad) RETURNS int8
AS 'MODULE_PATHNAME', 'pg_kohiblad_to_int8' LANGUAGE C STRICT IMMUTABLE PARALLEL SAFE;

CREATE FUNCTION kohiblad_to_float4(kohiblad) RETURNS float4
AS 'MODULE_PATHNAME', 'pg_kohiblad_to_float4' LANGUAGE C STRICT IMMUTABLE PARALLEL SAFE;

CREATE FUNCTION kohiblad_to_float8(kohiblad) RETURNS float8
AS 'MODULE_PATHNAME', 'pg_kohiblad_to_float8' LANGUAGE C STRICT IMMUTABLE PARALLEL SAFE;

CREATE FUNCTION kohiblad_to_bool(kohiblad) RETURNS bool
AS 'MODULE_PATHNAME', 'pg_kohiblad_to_bool' LANGUAGE C STRICT IMMUTABLE PARALLEL SAFE;

CREATE CAST (kohiblad AS numeric) WITH FUNCTION kohiblad_to_numeric(kohiblad);
CREATE CAST (kohiblad AS int2) WITH FUNCTION kohiblad_to_int2(kohiblad);
CREATE CAST (kohiblad AS int4) WITH FUNCTION kohiblad_to_int4(kohiblad);
CREATE CAST (kohiblad AS int8) WITH FUNCTION kohiblad_to_int8(kohiblad);
CREATE CAST (kohiblad AS float4) WITH FUNCTION kohiblad_to_float4(kohiblad);
CREATE CAST (kohiblad AS float8) WITH FUNCTION kohiblad_to_float8(kohiblad);
CREATE CAST (kohiblad AS bool) WITH FUNCTION kohiblad_to_bool(kohiblad);

-- From scalars that are exact and mean one document: a text may be JSON or a string, and a float is
-- rarely the number that was meant.

CREATE FUNCTION kohiblad(numeric) RETURNS kohiblad
AS 'MODULE_PATHNAME', 'pg_kohiblad_of_numeric' LANGUAGE C STRICT IMMUTABLE PARALLEL SAFE;

CREATE FUNCTION kohiblad(int2) RETURNS kohiblad
AS 'MODULE_PATHNAME', 'pg_kohiblad_of_int2' LANGUAGE C STRICT IMMUTABLE PARALLEL SAFE;

CREATE FUNCTION kohiblad(int4) RETURNS kohiblad
AS 'MODULE_PATHNAME', 'pg_kohiblad_of_int4' LANGUAGE C STRICT IMMUTABLE PARALLEL SAFE;

CREATE FUNCTION kohiblad(int8) RETURNS kohiblad
AS 'MODULE_PATHNAME', 'pg_kohiblad_of_int8' LANGUAGE C STRICT IMMUTABLE PARALLEL SAFE;

CREATE FUNCTION kohiblad(bool) RETURNS kohiblad
AS 'MODULE_PATHNAME', 'pg_kohiblad_of_bool' LANGUAGE C STRICT IMMUTABLE PARALLEL SAFE;

CREATE CAST (numeric AS kohiblad) WITH FUNCTION kohiblad(numeric);
CREATE CAST (int2 AS kohiblad) WITH FUNCTION kohiblad(int2);
CREATE CAST (int4 AS kohiblad) WITH FUNCTION kohiblad(int4);
CREATE CAST (int8 AS kohiblad) WITH FUNCTION kohiblad(int8);
CREATE CAST (bool AS kohiblad) WITH FUNCTION kohiblad(bool);

-- Documents. A text or a jsonb fits if its cast succeeds; else the fault is what the cast says.

CREATE FUNCTION kohiblad_fits(text) RETURNS bool
AS 'MODULE_PATHNAME', 'pg_kohiblad_fits_text' LANGUAGE C STRICT IMMUTABLE PARALLEL SAFE COST 10;

CREATE FUNCTION kohiblad_fits(jsonb) RETURNS bool
AS 'MODULE_PATHNAME', 'pg_kohiblad_fits_jsonb' LANGUAGE C STRICT IMMUTABLE PARALLEL SAFE COST 10;

CREATE FUNCTION kohiblad_fault(text) RETURNS text
AS 'MODULE_PATHNAME', 'pg_kohiblad_fault_text' LANGUAGE C STRICT IMMUTABLE PARALLEL SAFE COST 10;

CREATE FUNCTION kohiblad_fault(jsonb) RETURNS text
AS 'MODULE_PATHNAME', 'pg_kohiblad_fault_jsonb' LANGUAGE C STRICT IMMUTABLE PARALLEL SAFE COST 10;

CREATE FUNCTION kohiblad_version() RETURNS text
AS 'MODULE_PATHNAME', 'pg_kohiblad_version' LANGUAGE C STRICT STABLE PARALLEL SAFE;

-- Order

CREATE FUNCTION kohiblad_smaller(kohiblad, kohiblad) RETURNS kohiblad
AS 'MODULE_PATHNAME', 'pg_kohiblad_smaller' LANGUAGE C STRICT IMMUTABLE PARALLEL SAFE;

CREATE FUNCTION kohiblad_larger(kohiblad, kohiblad) RETURNS kohiblad
AS 'MODULE_PATHNAME', 'pg_kohiblad_larger' LANGUAGE C STRICT IMMUTABLE PARALLEL SAFE;

CREATE AGGREGATE min(kohiblad) (
    SFUNC = kohiblad_smaller, STYPE = kohiblad, COMBINEFUNC = kohiblad_smaller, SORTOP = <,
    PARALLEL = SAFE
);

CREATE AGGREGATE max(kohiblad) (
    SFUNC = kohiblad_larger, STYPE = kohiblad, COMBINEFUNC = kohiblad_larger, SORTOP = >,
    PARALLEL = SAFE
);

CREATE OPERATOR CLASS kohiblad_minmax_ops DEFAULT FOR TYPE kohiblad USING brin AS
    OPERATOR 1 <, OPERATOR 2 <=, OPERATOR 3 =, OPERATOR 4 >=, OPERATOR 5 >,
    FUNCTION 1 brin_minmax_opcinfo(internal),
    FUNCTION 2 brin_minmax_add_value(internal, internal, internal, internal),
    FUNCTION 3 brin_minmax_consistent(internal, internal, internal),
    FUNCTION 4 brin_minmax_union(internal, internal, internal);

-- Containment, and keys that exist

CREATE FUNCTION kohiblad_contains(kohiblad, kohiblad) RETURNS bool
AS 'MODULE_PATHNAME', 'pg_kohiblad_contains' LANGUAGE C STRICT IMMUTABLE PARALLEL SAFE COST 10;

CREATE FUNCTION kohiblad_contained(kohiblad, kohiblad) RETURNS bool
AS 'MODULE_PATHNAME', 'pg_kohiblad_contained' LANGUAGE C STRICT IMMUTABLE PARALLEL SAFE COST 10;

CREATE FUNCTION kohiblad_exists(kohiblad, text) RETURNS bool
AS 'MODULE_PATHNAME', 'pg_kohiblad_exists' LANGUAGE C STRICT IMMUTABLE PARALLEL SAFE;

CREATE FUNCTION kohiblad_exists_any(kohiblad, text[]) RETURNS bool
AS 'MODULE_PATHNAME', 'pg_kohiblad_exists_any' LANGUAGE C STRICT IMMUTABLE PARALLEL SAFE;

CREATE FUNCTION kohiblad_exists_all(kohiblad, text[]) RETURNS bool
AS 'MODULE_PATHNAME', 'pg_kohiblad_exists_all' LANGUAGE C STRICT IMMUTABLE PARALLEL SAFE;

CREATE OPERATOR @> (
    LEFTARG = kohiblad, RIGHTARG = kohiblad, FUNCTION = kohiblad_contains,
    COMMUTATOR = <@, RESTRICT = matchingsel, JOIN = matchingjoinsel
);

CREATE OPERATOR <@ (
    LEFTARG = kohiblad, RIGHTARG = kohiblad, FUNCTION = kohiblad_contained,
    COMMUTATOR = @>, RESTRICT = matchingsel, JOIN = matchingjoinsel
);

CREATE OPERATOR ? (
    LEFTARG = kohiblad, RIGHTARG = text, FUNCTION = kohiblad_exists,
    RESTRICT = matchingsel, JOIN = matchingjoinsel
);

CREATE OPERATOR ?| (
    LEFTARG = kohiblad, RIGHTARG = text[], FUNCTION = kohiblad_exists_any,
    RESTRICT = matchingsel, JOIN = matchingjoinsel
);

CREATE OPERATOR ?& (
    LEFTARG = kohiblad, RIGHTARG = text[], FUNCTION = kohiblad_exists_all,
    RESTRICT = matchingsel, JOIN = matchingjoinsel
);

-- Paths of SQL/JSON, by the server's functions over a jsonb of the document.

CREATE FUNCTION kohiblad_path_exists(target kohiblad, path jsonpath, vars kohiblad DEFAULT '{}',
    silent bool DEFAULT false) RETURNS bool
AS 'MODULE_PATHNAME', 'pg_kohiblad_path_exists' LANGUAGE C STRICT IMMUTABLE PARALLEL SAFE COST 20;

CREATE FUNCTION kohiblad_path_exists_tz(target kohiblad, path jsonpath,
    vars kohiblad DEFAULT '{}', silent bool DEFAULT false) RETURNS bool
AS 'MODULE_PATHNAME', 'pg_kohiblad_path_exists_tz' LANGUAGE C STRICT STABLE PARALLEL SAFE COST 20;

CREATE FUNCTION kohiblad_path_match(target kohiblad, path jsonpath, vars kohiblad DEFAULT '{}',
    silent bool DEFAULT false) RETURNS bool
AS 'MODULE_PATHNAME', 'pg_kohiblad_path_match' LANGUAGE C STRICT IMMUTABLE PARALLEL SAFE COST 20;

CREATE FUNCTION kohiblad_path_match_tz(target kohiblad, path jsonpath,
    vars kohiblad DEFAULT '{}', silent bool DEFAULT false) RETURNS bool
AS 'MODULE_PATHNAME', 'pg_kohiblad_path_match_tz' LANGUAGE C STRICT STABLE PARALLEL SAFE COST 20;

CREATE FUNCTION kohiblad_path_query(target kohiblad, path jsonpath, vars kohiblad DEFAULT '{}',
    silent bool DEFAULT false) RETURNS SETOF kohiblad
AS 'MODULE_PATHNAME', 'pg_kohiblad_path_query' LANGUAGE C STRICT IMMUTABLE PARALLEL SAFE COST 20;

CREATE FUNCTION kohiblad_path_query_tz(target kohiblad, path jsonpath,
    vars kohiblad DEFAULT '{}', silent bool DEFAULT false) RETURNS SETOF kohiblad
AS 'MODULE_PATHNAME', 'pg_kohiblad_path_query_tz' LANGUAGE C STRICT STABLE PARALLEL SAFE COST 20;

CREATE FUNCTION kohiblad_path_query_array(target kohiblad, path jsonpath,
    vars kohiblad DEFAULT '{}', silent bool DEFAULT false) RETURNS kohiblad
AS 'MODULE_PATHNAME',
    'pg_kohiblad_path_query_array' LANGUAGE C STRICT IMMUTABLE PARALLEL SAFE COST 20;

CREATE FUNCTION kohiblad_path_query_array_tz(target kohiblad, path jsonpath,
    vars kohiblad DEFAULT '{}', silent bool DEFAULT false) RETURNS kohiblad
AS 'MODULE_PATHNAME',
    'pg_kohiblad_path_query_array_tz' LANGUAGE C STRICT STABLE PARALLEL SAFE COST 20;

CREATE FUNCTION kohiblad_path_query_first(target kohiblad, path jsonpath,
    vars kohiblad DEFAULT '{}', silent bool DEFAULT false) RETURNS kohiblad
AS 'MODULE_PATHNAME',
    'pg_kohiblad_path_query_first' LANGUAGE C STRICT IMMUTABLE PARALLEL SAFE COST 20;

CREATE FUNCTION kohiblad_path_query_first_tz(target kohiblad, path jsonpath,
    vars kohiblad DEFAULT '{}', silent bool DEFAULT false) RETURNS kohiblad
AS 'MODULE_PATHNAME',
    'pg_kohiblad_path_query_first_tz' LANGUAGE C STRICT STABLE PARALLEL SAFE COST 20;

CREATE FUNCTION kohiblad_path_exists_opr(kohiblad, jsonpath) RETURNS bool
AS 'MODULE_PATHNAME',
    'pg_kohiblad_path_exists_opr' LANGUAGE C STRICT IMMUTABLE PARALLEL SAFE COST 20;

CREATE FUNCTION kohiblad_path_match_opr(kohiblad, jsonpath) RETURNS bool
AS 'MODULE_PATHNAME',
    'pg_kohiblad_path_match_opr' LANGUAGE C STRICT IMMUTABLE PARALLEL SAFE COST 20;

CREATE OPERATOR @? (
    LEFTARG = kohiblad, RIGHTARG = jsonpath, FUNCTION = kohiblad_path_exists_opr,
    RESTRICT = matchingsel, JOIN = matchingjoinsel
);

CREATE OPERATOR @@ (
    LEFTARG = kohiblad, RIGHTARG = jsonpath, FUNCTION = kohiblad_path_match_opr,
    RESTRICT = matchingsel, JOIN = matchingjoinsel
);

-- Indexes for them: of all operators, or without those of keys that exist, which takes less room.

CREATE FUNCTION kohiblad_gin_extract(kohiblad, internal, internal) RETURNS internal
AS 'MODULE_PATHNAME', 'pg_kohiblad_gin_extract' LANGUAGE C STRICT IMMUTABLE PARALLEL SAFE;

CREATE FUNCTION kohiblad_gin_extract_values(kohiblad, internal, internal) RETURNS internal
AS 'MODULE_PATHNAME', 'pg_kohiblad_gin_extract_values' LANGUAGE C STRICT IMMUTABLE PARALLEL SAFE;

CREATE FUNCTION kohiblad_gin_extract_query(kohiblad, internal, int2, internal, internal, internal,
    internal) RETURNS internal
AS 'MODULE_PATHNAME', 'pg_kohiblad_gin_extract_query' LANGUAGE C STRICT IMMUTABLE PARALLEL SAFE;

CREATE FUNCTION kohiblad_gin_consistent(internal, int2, kohiblad, int4, internal, internal,
    internal, internal) RETURNS bool
AS 'MODULE_PATHNAME', 'pg_kohiblad_gin_consistent' LANGUAGE C STRICT IMMUTABLE PARALLEL SAFE;

CREATE FUNCTION kohiblad_gin_triconsistent(internal, int2, kohiblad, int4, internal, internal,
    internal) RETURNS "char"
AS 'MODULE_PATHNAME', 'pg_kohiblad_gin_triconsistent' LANGUAGE C STRICT IMMUTABLE PARALLEL SAFE;

CREATE OPERATOR CLASS kohiblad_ops DEFAULT FOR TYPE kohiblad USING gin AS
    OPERATOR 7 @>, OPERATOR 9 ?(kohiblad, text), OPERATOR 10 ?|(kohiblad, text[]),
    OPERATOR 11 ?&(kohiblad, text[]), OPERATOR 15 @?(kohiblad, jsonpath),
    OPERATOR 16 @@(kohiblad, jsonpath),
    FUNCTION 1 btint8cmp(int8, int8),
    FUNCTION 2 kohiblad_gin_extract(kohiblad, internal, internal),
    FUNCTION 3 kohiblad_gin_extract_query(kohiblad, internal, int2, internal, internal, internal,
        internal),
    FUNCTION 4 kohiblad_gin_consistent(internal, int2, kohiblad, int4, internal, internal,
        internal, internal),
    FUNCTION 6 kohiblad_gin_triconsistent(internal, int2, kohiblad, int4, internal, internal,
        internal),
    STORAGE int8;

CREATE OPERATOR CLASS kohiblad_path_ops FOR TYPE kohiblad USING gin AS
    OPERATOR 7 @>, OPERATOR 15 @?(kohiblad, jsonpath), OPERATOR 16 @@(kohiblad, jsonpath),
    FUNCTION 1 btint8cmp(int8, int8),
    FUNCTION 2 kohiblad_gin_extract_values(kohiblad, internal, internal),
    FUNCTION 3 kohiblad_gin_extract_query(kohiblad, internal, int2, internal, internal, internal,
        internal),
    FUNCTION 4 kohiblad_gin_consistent(internal, int2, kohiblad, int4, internal, internal,
        internal, internal),
    FUNCTION 6 kohiblad_gin_triconsistent(internal, int2, kohiblad, int4, internal, internal,
        internal),
    STORAGE int8;

-- Changed copies

CREATE FUNCTION kohiblad_concat(kohiblad, kohiblad) RETURNS kohiblad
AS 'MODULE_PATHNAME', 'pg_kohiblad_concat' LANGUAGE C STRICT IMMUTABLE PARALLEL SAFE COST 10;

CREATE FUNCTION kohiblad_delete(kohiblad, text) RETURNS kohiblad
AS 'MODULE_PATHNAME', 'pg_kohiblad_delete' LANGUAGE C STRICT IMMUTABLE PARALLEL SAFE COST 10;

CREATE FUNCTION kohiblad_delete(kohiblad, int4) RETURNS kohiblad
AS 'MODULE_PATHNAME', 'pg_kohiblad_delete_index' LANGUAGE C STRICT IMMUTABLE PARALLEL SAFE COST 10;

CREATE FUNCTION kohiblad_delete(from_kohiblad kohiblad, VARIADIC keys text[]) RETURNS kohiblad
AS 'MODULE_PATHNAME', 'pg_kohiblad_delete_array' LANGUAGE C STRICT IMMUTABLE PARALLEL SAFE COST 10;

CREATE FUNCTION kohiblad_delete_path(kohiblad, text[]) RETURNS kohiblad
AS 'MODULE_PATHNAME', 'pg_kohiblad_delete_path' LANGUAGE C STRICT IMMUTABLE PARALLEL SAFE COST 10;

CREATE OPERATOR || (LEFTARG = kohiblad, RIGHTARG = kohiblad, FUNCTION = kohiblad_concat);
CREATE OPERATOR - (LEFTARG = kohiblad, RIGHTARG = text, FUNCTION = kohiblad_delete);
CREATE OPERATOR - (LEFTARG = kohiblad, RIGHTARG = int4, FUNCTION = kohiblad_delete);
CREATE OPERATOR - (LEFTARG = kohiblad, RIGHTARG = text[], FUNCTION = kohiblad_delete);
CREATE OPERATOR #- (LEFTARG = kohiblad, RIGHTARG = text[], FUNCTION = kohiblad_delete_path);

CREATE FUNCTION kohiblad_set(kohiblad_in kohiblad, path text[], replacement kohiblad,
    create_if_missing bool DEFAULT true) RETURNS kohiblad
AS 'MODULE_PATHNAME', 'pg_kohiblad_set' LANGUAGE C STRICT IMMUTABLE PARALLEL SAFE COST 10;

CREATE FUNCTION kohiblad_set_lax(kohiblad_in kohiblad, path text[], replacement kohiblad,
    create_if_missing bool DEFAULT true, null_value_treatment text DEFAULT 'use_json_null')
RETURNS kohiblad
AS 'MODULE_PATHNAME', 'pg_kohiblad_set_lax' LANGUAGE C IMMUTABLE PARALLEL SAFE COST 10;

CREATE FUNCTION kohiblad_insert(kohiblad_in kohiblad, path text[], replacement kohiblad,
    insert_after bool DEFAULT false) RETURNS kohiblad
AS 'MODULE_PATHNAME', 'pg_kohiblad_insert' LANGUAGE C STRICT IMMUTABLE PARALLEL SAFE COST 10;

CREATE FUNCTION kohiblad_strip_nulls(kohiblad) RETURNS kohiblad
AS 'MODULE_PATHNAME', 'pg_kohiblad_strip_nulls' LANGUAGE C STRICT IMMUTABLE PARALLEL SAFE COST 10;

CREATE FUNCTION kohiblad_merge_patch(target kohiblad, patch kohiblad) RETURNS kohiblad
AS 'MODULE_PATHNAME', 'pg_kohiblad_merge_patch' LANGUAGE C STRICT IMMUTABLE PARALLEL SAFE COST 10;

CREATE FUNCTION kohiblad_subscript(internal) RETURNS internal
AS 'MODULE_PATHNAME', 'pg_kohiblad_subscript' LANGUAGE C STRICT IMMUTABLE PARALLEL SAFE;

ALTER TYPE kohiblad SET (SUBSCRIPT = kohiblad_subscript);

-- Parts. Of -> and #>, whose paths are texts with a collation, postgres_fdw sends nothing: so the
-- planner turns them into kohiblad_at, whose path is a document.

CREATE FUNCTION kohiblad_at(kohiblad, kohiblad) RETURNS kohiblad
AS 'MODULE_PATHNAME', 'pg_kohiblad_at' LANGUAGE C STRICT IMMUTABLE PARALLEL SAFE;

CREATE FUNCTION kohiblad_at_support(internal) RETURNS internal
AS 'MODULE_PATHNAME', 'pg_kohiblad_at_support' LANGUAGE C STRICT IMMUTABLE PARALLEL SAFE;

CREATE FUNCTION kohiblad_extract_path(from_kohiblad kohiblad,
    VARIADIC path_elems text[]) RETURNS kohiblad
AS 'MODULE_PATHNAME', 'pg_kohiblad_path' LANGUAGE C STRICT IMMUTABLE PARALLEL SAFE;

ALTER FUNCTION kohiblad_member(kohiblad, text) SUPPORT kohiblad_at_support;
ALTER FUNCTION kohiblad_path(kohiblad, text[]) SUPPORT kohiblad_at_support;
ALTER FUNCTION kohiblad_extract_path(kohiblad, text[]) SUPPORT kohiblad_at_support;

CREATE FUNCTION kohiblad_extract_path_text(from_kohiblad kohiblad,
    VARIADIC path_elems text[]) RETURNS text
AS 'MODULE_PATHNAME', 'pg_kohiblad_path_text' LANGUAGE C STRICT IMMUTABLE PARALLEL SAFE;

CREATE FUNCTION kohiblad_typeof(kohiblad) RETURNS text
AS 'MODULE_PATHNAME', 'pg_kohiblad_kind' LANGUAGE C STRICT IMMUTABLE PARALLEL SAFE;

CREATE FUNCTION kohiblad_array_length(kohiblad) RETURNS int4
AS 'MODULE_PATHNAME', 'pg_kohiblad_array_length' LANGUAGE C STRICT IMMUTABLE PARALLEL SAFE;

CREATE FUNCTION kohiblad_object_keys(kohiblad) RETURNS SETOF text
AS 'MODULE_PATHNAME',
    'pg_kohiblad_object_keys' LANGUAGE C STRICT IMMUTABLE PARALLEL SAFE COST 10 ROWS 100;

CREATE FUNCTION kohiblad_array_elements(from_kohiblad kohiblad,
    OUT value kohiblad) RETURNS SETOF kohiblad
AS 'MODULE_PATHNAME',
    'pg_kohiblad_array_elements' LANGUAGE C STRICT IMMUTABLE PARALLEL SAFE COST 10 ROWS 100;

CREATE FUNCTION kohiblad_array_elements_text(from_kohiblad kohiblad,
    OUT value text) RETURNS SETOF text
AS 'MODULE_PATHNAME',
    'pg_kohiblad_array_elements_text' LANGUAGE C STRICT IMMUTABLE PARALLEL SAFE COST 10 ROWS 100;

CREATE FUNCTION kohiblad_each_text(kohiblad, OUT key text, OUT value text) RETURNS SETOF record
AS 'MODULE_PATHNAME',
    'pg_kohiblad_each_text' LANGUAGE C STRICT IMMUTABLE PARALLEL SAFE COST 10 ROWS 100;

-- Documents of values. These depend on the time zone and other settings of the server.

CREATE FUNCTION to_kohiblad(anyelement) RETURNS kohiblad
AS 'MODULE_PATHNAME', 'pg_kohiblad_of_any' LANGUAGE C STRICT STABLE PARALLEL SAFE COST 10;

CREATE FUNCTION kohiblad_build_array(VARIADIC "any") RETURNS kohiblad
AS 'MODULE_PATHNAME', 'pg_kohiblad_build_array' LANGUAGE C STABLE PARALLEL SAFE COST 10;

CREATE FUNCTION kohiblad_build_array() RETURNS kohiblad
AS 'MODULE_PATHNAME', 'pg_kohiblad_build_empty_array' LANGUAGE C STABLE PARALLEL SAFE;

CREATE FUNCTION kohiblad_build_object(VARIADIC "any") RETURNS kohiblad
AS 'MODULE_PATHNAME', 'pg_kohiblad_build_object' LANGUAGE C STABLE PARALLEL SAFE COST 10;

CREATE FUNCTION kohiblad_build_object() RETURNS kohiblad
AS 'MODULE_PATHNAME', 'pg_kohiblad_build_empty_object' LANGUAGE C STABLE PARALLEL SAFE;

CREATE FUNCTION kohiblad_object(text[]) RETURNS kohiblad
AS 'MODULE_PATHNAME', 'pg_kohiblad_object' LANGUAGE C STRICT IMMUTABLE PARALLEL SAFE COST 10;

CREATE FUNCTION kohiblad_object(text[], text[]) RETURNS kohiblad
AS 'MODULE_PATHNAME', 'pg_kohiblad_object_two' LANGUAGE C STRICT IMMUTABLE PARALLEL SAFE COST 10;

-- Records

CREATE FUNCTION kohiblad_populate_record(base anyelement,
    from_kohiblad kohiblad) RETURNS anyelement
AS 'MODULE_PATHNAME', 'pg_kohiblad_populate_record' LANGUAGE C STABLE PARALLEL SAFE COST 10;

CREATE FUNCTION kohiblad_populate_recordset(base anyelement,
    from_kohiblad kohiblad) RETURNS SETOF anyelement
AS 'MODULE_PATHNAME',
    'pg_kohiblad_populate_recordset' LANGUAGE C STABLE PARALLEL SAFE COST 10 ROWS 100;

CREATE FUNCTION kohiblad_to_record(from_kohiblad kohiblad) RETURNS record
AS 'MODULE_PATHNAME', 'pg_kohiblad_to_record' LANGUAGE C STRICT STABLE PARALLEL SAFE COST 10;

CREATE FUNCTION kohiblad_to_recordset(from_kohiblad kohiblad) RETURNS SETOF record
AS 'MODULE_PATHNAME',
    'pg_kohiblad_to_recordset' LANGUAGE C STRICT STABLE PARALLEL SAFE COST 10 ROWS 100;

-- Aggregates of any values, whose workers join their rows.

CREATE FUNCTION kohiblad_rows_combine(internal, internal) RETURNS internal
AS 'MODULE_PATHNAME', 'pg_kohiblad_rows_combine' LANGUAGE C IMMUTABLE PARALLEL SAFE;

CREATE FUNCTION kohiblad_rows_serialize(internal) RETURNS bytea
AS 'MODULE_PATHNAME', 'pg_kohiblad_rows_serialize' LANGUAGE C STRICT IMMUTABLE PARALLEL SAFE;

CREATE FUNCTION kohiblad_rows_deserialize(bytea, internal) RETURNS internal
AS 'MODULE_PATHNAME', 'pg_kohiblad_rows_deserialize' LANGUAGE C STRICT IMMUTABLE PARALLEL SAFE;

CREATE FUNCTION kohiblad_agg_step(internal, anyelement) RETURNS internal
AS 'MODULE_PATHNAME', 'pg_kohiblad_agg_step' LANGUAGE C STABLE PARALLEL SAFE;

CREATE FUNCTION kohiblad_agg_step(internal, jsonb) RETURNS internal
AS 'MODULE_PATHNAME', 'pg_kohiblad_agg_step' LANGUAGE C STABLE PARALLEL SAFE;

CREATE FUNCTION kohiblad_object_agg_step(internal, "any", "any") RETURNS internal
AS 'MODULE_PATHNAME', 'pg_kohiblad_object_agg_step' LANGUAGE C STABLE PARALLEL SAFE;

CREATE OR REPLACE AGGREGATE kohiblad_agg(kohiblad) (
    SFUNC = kohiblad_agg_step, STYPE = internal, FINALFUNC = kohiblad_agg_final,
    COMBINEFUNC = kohiblad_rows_combine, SERIALFUNC = kohiblad_rows_serialize,
    DESERIALFUNC = kohiblad_rows_deserialize, PARALLEL = SAFE
);

CREATE AGGREGATE kohiblad_agg(anyelement) (
    SFUNC = kohiblad_agg_step, STYPE = internal, FINALFUNC = kohiblad_agg_final,
    COMBINEFUNC = kohiblad_rows_combine, SERIALFUNC = kohiblad_rows_serialize,
    DESERIALFUNC = kohiblad_rows_deserialize, PARALLEL = SAFE
);

-- A jsonb fits both of these, so it has one of its own.
CREATE AGGREGATE kohiblad_agg(jsonb) (
    SFUNC = kohiblad_agg_step, STYPE = internal, FINALFUNC = kohiblad_agg_final,
    COMBINEFUNC = kohiblad_rows_combine, SERIALFUNC = kohiblad_rows_serialize,
    DESERIALFUNC = kohiblad_rows_deserialize, PARALLEL = SAFE
);

CREATE OR REPLACE AGGREGATE kohiblad_object_agg(text, kohiblad) (
    SFUNC = kohiblad_object_agg_step, STYPE = internal, FINALFUNC = kohiblad_object_agg_final,
    COMBINEFUNC = kohiblad_rows_combine, SERIALFUNC = kohiblad_rows_serialize,
    DESERIALFUNC = kohiblad_rows_deserialize, PARALLEL = SAFE
);

CREATE AGGREGATE kohiblad_object_agg("any", "any") (
    SFUNC = kohiblad_object_agg_step, STYPE = internal, FINALFUNC = kohiblad_object_agg_final,
    COMBINEFUNC = kohiblad_rows_combine, SERIALFUNC = kohiblad_rows_serialize,
    DESERIALFUNC = kohiblad_rows_deserialize, PARALLEL = SAFE
);

-- Full text search, by the server's functions over a jsonb of the document.

CREATE FUNCTION to_tsvector(kohiblad) RETURNS tsvector
LANGUAGE sql STRICT STABLE PARALLEL SAFE COST 100
RETURN to_tsvector($1::jsonb);

CREATE FUNCTION to_tsvector(regconfig, kohiblad) RETURNS tsvector
LANGUAGE sql STRICT IMMUTABLE PARALLEL SAFE COST 100
RETURN to_tsvector($1, $2::jsonb);

CREATE FUNCTION kohiblad_to_tsvector(kohiblad, kohiblad) RETURNS tsvector
LANGUAGE sql STRICT STABLE PARALLEL SAFE COST 100
RETURN jsonb_to_tsvector($1::jsonb, $2::jsonb);

CREATE FUNCTION kohiblad_to_tsvector(regconfig, kohiblad, kohiblad) RETURNS tsvector
LANGUAGE sql STRICT IMMUTABLE PARALLEL SAFE COST 100
RETURN jsonb_to_tsvector($1, $2::jsonb, $3::jsonb);

CREATE FUNCTION ts_headline(kohiblad, tsquery) RETURNS kohiblad
LANGUAGE sql STRICT STABLE PARALLEL SAFE COST 100
RETURN ts_headline($1::jsonb, $2)::kohiblad;

CREATE FUNCTION ts_headline(kohiblad, tsquery, text) RETURNS kohiblad
LANGUAGE sql STRICT STABLE PARALLEL SAFE COST 100
RETURN ts_headline($1::jsonb, $2, $3)::kohiblad;

CREATE FUNCTION ts_headline(regconfig, kohiblad, tsquery) RETURNS kohiblad
LANGUAGE sql STRICT IMMUTABLE PARALLEL SAFE COST 100
RETURN ts_headline($1, $2::jsonb, $3)::kohiblad;

CREATE FUNCTION ts_headline(regconfig, kohiblad, tsquery, text) RETURNS kohiblad
LANGUAGE sql STRICT IMMUTABLE PARALLEL SAFE COST 100
RETURN ts_headline($1, $2::jsonb, $3, $4)::kohiblad;
