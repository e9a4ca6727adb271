\echo Use "ALTER EXTENSION kohiblad UPDATE" to load this file. \quit

-- What 0.8 declares calls the module that is installed. New is a survey of members, whose workers
-- join their counts.

CREATE FUNCTION kohiblad_survey_step(internal, kohiblad, kohiblad) RETURNS internal
AS 'MODULE_PATHNAME', 'pg_kohiblad_survey_step' LANGUAGE C IMMUTABLE PARALLEL SAFE;

CREATE FUNCTION kohiblad_survey_combine(internal, internal) RETURNS internal
AS 'MODULE_PATHNAME', 'pg_kohiblad_survey_combine' LANGUAGE C IMMUTABLE PARALLEL SAFE;

CREATE FUNCTION kohiblad_survey_serialize(internal) RETURNS bytea
AS 'MODULE_PATHNAME', 'pg_kohiblad_survey_serialize' LANGUAGE C STRICT IMMUTABLE PARALLEL SAFE;

CREATE FUNCTION kohiblad_survey_deserialize(bytea, internal) RETURNS internal
AS 'MODULE_PATHNAME', 'pg_kohiblad_survey_deserialize' LANGUAGE C STRICT IMMUTABLE PARALLEL SAFE;

CREATE FUNCTION kohiblad_survey_final(internal) RETURNS kohiblad
AS 'MODULE_PATHNAME', 'pg_kohiblad_survey_final' LANGUAGE C IMMUTABLE PARALLEL SAFE;

CREATE AGGREGATE kohiblad_survey(kohiblad, kohiblad) (
    SFUNC = kohiblad_survey_step, STYPE = internal, FINALFUNC = kohiblad_survey_final,
    COMBINEFUNC = kohiblad_survey_combine, SERIALFUNC = kohiblad_survey_serialize,
    DESERIALFUNC = kohiblad_survey_deserialize, PARALLEL = SAFE
);

-- Estimates of the planner: where a value is in a bucket of a histogram, and how common the keys of
-- documents are that GIN indexes have.

CREATE FUNCTION kohiblad_rangesel(internal, oid, internal, int4) RETURNS float8
AS 'MODULE_PATHNAME', 'pg_kohiblad_rangesel' LANGUAGE C STRICT STABLE PARALLEL SAFE;

CREATE FUNCTION kohiblad_rangejoinsel(internal, oid, internal, int2, internal) RETURNS float8
AS 'MODULE_PATHNAME', 'pg_kohiblad_rangejoinsel' LANGUAGE C STRICT STABLE PARALLEL SAFE;

CREATE FUNCTION kohiblad_matchsel(internal, oid, internal, int4) RETURNS float8
AS 'MODULE_PATHNAME', 'pg_kohiblad_matchsel' LANGUAGE C STRICT STABLE PARALLEL SAFE;

CREATE FUNCTION kohiblad_typanalyze(internal) RETURNS bool
AS 'MODULE_PATHNAME', 'pg_kohiblad_typanalyze' LANGUAGE C STRICT STABLE PARALLEL SAFE;

COMMENT ON FUNCTION kohiblad_rangesel(internal, oid, internal, int4)
    IS 'restriction selectivity of <, <=, > and >= on documents';
COMMENT ON FUNCTION kohiblad_rangejoinsel(internal, oid, internal, int2, internal)
    IS 'join selectivity of <, <=, > and >= on documents';
COMMENT ON FUNCTION kohiblad_matchsel(internal, oid, internal, int4)
    IS 'restriction selectivity of @>, ?, ?|, ?&, @? and @@ on documents';
COMMENT ON FUNCTION kohiblad_typanalyze(internal) IS 'analyzes columns of documents';

ALTER OPERATOR < (kohiblad, kohiblad)
    SET (RESTRICT = kohiblad_rangesel, JOIN = kohiblad_rangejoinsel);
ALTER OPERATOR <= (kohiblad, kohiblad)
    SET (RESTRICT = kohiblad_rangesel, JOIN = kohiblad_rangejoinsel);
ALTER OPERATOR >= (kohiblad, kohiblad)
    SET (RESTRICT = kohiblad_rangesel, JOIN = kohiblad_rangejoinsel);
ALTER OPERATOR > (kohiblad, kohiblad)
    SET (RESTRICT = kohiblad_rangesel, JOIN = kohiblad_rangejoinsel);
ALTER OPERATOR @> (kohiblad, kohiblad) SET (RESTRICT = kohiblad_matchsel);
ALTER OPERATOR ? (kohiblad, text) SET (RESTRICT = kohiblad_matchsel);
ALTER OPERATOR ?| (kohiblad, text[]) SET (RESTRICT = kohiblad_matchsel);
ALTER OPERATOR ?& (kohiblad, text[]) SET (RESTRICT = kohiblad_matchsel);
ALTER OPERATOR @? (kohiblad, jsonpath) SET (RESTRICT = kohiblad_matchsel);
ALTER OPERATOR @@ (kohiblad, jsonpath) SET (RESTRICT = kohiblad_matchsel);
ALTER TYPE kohiblad SET (ANALYZE = kohiblad_typanalyze);

-- Words of documents, which are gathered without a jsonb of each.

CREATE OR REPLACE FUNCTION to_tsvector(kohiblad) RETURNS tsvector
AS 'MODULE_PATHNAME', 'pg_kohiblad_to_tsvector' LANGUAGE C STRICT STABLE PARALLEL SAFE COST 100;

CREATE OR REPLACE FUNCTION to_tsvector(regconfig, kohiblad) RETURNS tsvector
AS 'MODULE_PATHNAME', 'pg_kohiblad_to_tsvector_by' LANGUAGE C STRICT IMMUTABLE PARALLEL SAFE
COST 100;

-- Several servers. What is compared with IN is an array. postgres_fdw sends what belongs to the
-- extension, as the array type does by itself from PostgreSQL 17 on. It sends no text, which has a
-- collation, so the planner turns ?, ?| and ?& on a foreign table into functions whose keys are a
-- document, and these back on any other table.

DO $$
BEGIN
    IF current_setting('server_version_num')::int < 170000 THEN
        EXECUTE 'ALTER EXTENSION kohiblad ADD TYPE kohiblad[]';
    END IF;
END $$;

COMMENT ON TYPE kohiblad[] IS 'arrays of documents';

CREATE FUNCTION kohiblad_has(kohiblad, kohiblad) RETURNS bool
AS 'MODULE_PATHNAME', 'pg_kohiblad_has' LANGUAGE C STRICT IMMUTABLE PARALLEL SAFE;

CREATE FUNCTION kohiblad_has_any(kohiblad, kohiblad) RETURNS bool
AS 'MODULE_PATHNAME', 'pg_kohiblad_has_any' LANGUAGE C STRICT IMMUTABLE PARALLEL SAFE;

CREATE FUNCTION kohiblad_has_all(kohiblad, kohiblad) RETURNS bool
AS 'MODULE_PATHNAME', 'pg_kohiblad_has_all' LANGUAGE C STRICT IMMUTABLE PARALLEL SAFE;

CREATE FUNCTION kohiblad_has_support(internal) RETURNS internal
AS 'MODULE_PATHNAME', 'pg_kohiblad_has_support' LANGUAGE C STRICT IMMUTABLE PARALLEL SAFE;

COMMENT ON FUNCTION kohiblad_has(kohiblad, kohiblad)
    IS 'whether a key exists, as ?, which is the document of a text';
COMMENT ON FUNCTION kohiblad_has_any(kohiblad, kohiblad)
    IS 'whether any of some keys exists, as ?|, which are an array of texts';
COMMENT ON FUNCTION kohiblad_has_all(kohiblad, kohiblad)
    IS 'whether all of some keys exist, as ?&, which are an array of texts';
COMMENT ON FUNCTION kohiblad_has_support(internal)
    IS 'planner support of kohiblad_has and kohiblad_exists';

ALTER FUNCTION kohiblad_exists(kohiblad, text) SUPPORT kohiblad_has_support;
ALTER FUNCTION kohiblad_exists_any(kohiblad, text[]) SUPPORT kohiblad_has_support;
ALTER FUNCTION kohiblad_exists_all(kohiblad, text[]) SUPPORT kohiblad_has_support;
ALTER FUNCTION kohiblad_has(kohiblad, kohiblad) SUPPORT kohiblad_has_support;
ALTER FUNCTION kohiblad_has_any(kohiblad, kohiblad) SUPPORT kohiblad_has_support;
ALTER FUNCTION kohiblad_has_all(kohiblad, kohiblad) SUPPORT kohiblad_has_support;

-- Descriptions, which psql shows by \dT+, \do+, \df+ and their like.

COMMENT ON TYPE kohiblad IS 'JSON value as a binary document with exact decimals';

COMMENT ON OPERATOR #- (kohiblad, text[]) IS 'delete what is at the end of a path';
COMMENT ON OPERATOR #> (kohiblad, text[]) IS 'value at the end of a path';
COMMENT ON OPERATOR #>> (kohiblad, text[]) IS 'value at the end of a path, as text';
COMMENT ON OPERATOR - (kohiblad, int4) IS 'delete the item at an index';
COMMENT ON OPERATOR - (kohiblad, text) IS 'delete a key, or the items that are the string';
COMMENT ON OPERATOR - (kohiblad, text[]) IS 'delete keys, or the items that are one of the strings';
COMMENT ON OPERATOR -> (kohiblad, int4) IS 'item at an index';
COMMENT ON OPERATOR -> (kohiblad, text) IS 'value of a key';
COMMENT ON OPERATOR ->> (kohiblad, int4) IS 'item at an index, as text';
COMMENT ON OPERATOR ->> (kohiblad, text) IS 'value of a key, as text';
COMMENT ON OPERATOR < (kohiblad, kohiblad) IS 'less than';
COMMENT ON OPERATOR <= (kohiblad, kohiblad) IS 'less than or equal';
COMMENT ON OPERATOR <> (kohiblad, kohiblad) IS 'not equal';
COMMENT ON OPERATOR <@ (kohiblad, kohiblad) IS 'is contained by';
COMMENT ON OPERATOR = (kohiblad, kohiblad) IS 'equal';
COMMENT ON OPERATOR > (kohiblad, kohiblad) IS 'greater than';
COMMENT ON OPERATOR >= (kohiblad, kohiblad) IS 'greater than or equal';
COMMENT ON OPERATOR ?& (kohiblad, text[]) IS 'all keys exist';
COMMENT ON OPERATOR ? (kohiblad, text) IS 'key exists';
COMMENT ON OPERATOR ?| (kohiblad, text[]) IS 'any key exists';
COMMENT ON OPERATOR @> (kohiblad, kohiblad) IS 'contains';
COMMENT ON OPERATOR @? (kohiblad, jsonpath) IS 'path of SQL/JSON finds anything';
COMMENT ON OPERATOR @@ (kohiblad, jsonpath) IS 'predicate of a path of SQL/JSON holds';
COMMENT ON OPERATOR || (kohiblad, kohiblad) IS 'put together';

COMMENT ON FUNCTION kohiblad(int8) IS 'document of a whole number';
COMMENT ON FUNCTION kohiblad(bool) IS 'document of a truth value';
COMMENT ON FUNCTION kohiblad(int4) IS 'document of a whole number';
COMMENT ON FUNCTION kohiblad(numeric) IS 'document of a number';
COMMENT ON FUNCTION kohiblad(bytea) IS 'document that has these bytes, which are checked';
COMMENT ON FUNCTION kohiblad(int2) IS 'document of a whole number';
COMMENT ON FUNCTION kohiblad_agg_final(internal) IS 'aggregate final function';
COMMENT ON FUNCTION kohiblad_agg_step(internal, anyelement) IS 'aggregate transition function';
COMMENT ON FUNCTION kohiblad_agg_step(internal, jsonb) IS 'aggregate transition function';
COMMENT ON FUNCTION kohiblad_agg_step(internal, kohiblad) IS 'aggregate transition function';
COMMENT ON FUNCTION kohiblad_array_elements(kohiblad) IS 'row for each item of an array';
COMMENT ON FUNCTION kohiblad_array_elements_text(kohiblad)
    IS 'row for each item of an array, as text';
COMMENT ON FUNCTION kohiblad_array_length(kohiblad) IS 'number of items of an array';
COMMENT ON FUNCTION kohiblad_at(kohiblad, kohiblad) IS 'value at a path, which is a document';
COMMENT ON FUNCTION kohiblad_at_support(internal) IS 'planner support for -> and #>';
COMMENT ON FUNCTION kohiblad_build_array() IS 'empty array';
COMMENT ON FUNCTION kohiblad_build_array("any") IS 'array of the arguments, of any types';
COMMENT ON FUNCTION kohiblad_build_object() IS 'empty object';
COMMENT ON FUNCTION kohiblad_build_object("any") IS 'object of keys and values that take turns';
COMMENT ON FUNCTION kohiblad_canonical(kohiblad) IS 'document in canonical form';
COMMENT ON FUNCTION kohiblad_cmp(kohiblad, kohiblad)
    IS 'less than 0, 0 or more by the order of documents';
COMMENT ON FUNCTION kohiblad_concat(kohiblad, kohiblad) IS 'implementation of || operator';
COMMENT ON FUNCTION kohiblad_contained(kohiblad, kohiblad) IS 'implementation of <@ operator';
COMMENT ON FUNCTION kohiblad_contains(kohiblad, kohiblad) IS 'implementation of @> operator';
COMMENT ON FUNCTION kohiblad_delete(kohiblad, int4) IS 'implementation of - operator';
COMMENT ON FUNCTION kohiblad_delete(kohiblad, text) IS 'implementation of - operator';
COMMENT ON FUNCTION kohiblad_delete(kohiblad, text[]) IS 'implementation of - operator';
COMMENT ON FUNCTION kohiblad_delete_path(kohiblad, text[]) IS 'implementation of #- operator';
COMMENT ON FUNCTION kohiblad_each(kohiblad)
    IS 'row for each member of an object or item of an array';
COMMENT ON FUNCTION kohiblad_each_text(kohiblad)
    IS 'row for each member of an object or item of an array, with its value as text';
COMMENT ON FUNCTION kohiblad_eq(kohiblad, kohiblad) IS 'implementation of = operator';
COMMENT ON FUNCTION kohiblad_exists(kohiblad, text) IS 'implementation of ? operator';
COMMENT ON FUNCTION kohiblad_exists_all(kohiblad, text[]) IS 'implementation of ?& operator';
COMMENT ON FUNCTION kohiblad_exists_any(kohiblad, text[]) IS 'implementation of ?| operator';
COMMENT ON FUNCTION kohiblad_extract_path(kohiblad, text[]) IS 'value at the end of a path';
COMMENT ON FUNCTION kohiblad_extract_path_text(kohiblad, text[])
    IS 'value at the end of a path, as text';
COMMENT ON FUNCTION kohiblad_fault(jsonb) IS 'error of the cast to kohiblad, NULL if it succeeds';
COMMENT ON FUNCTION kohiblad_fault(text) IS 'error of the cast to kohiblad, NULL if it succeeds';
COMMENT ON FUNCTION kohiblad_fits(jsonb) IS 'whether the cast to kohiblad succeeds';
COMMENT ON FUNCTION kohiblad_fits(text) IS 'whether the cast to kohiblad succeeds';
COMMENT ON FUNCTION kohiblad_ge(kohiblad, kohiblad) IS 'implementation of >= operator';
COMMENT ON FUNCTION kohiblad_gin_consistent(internal, int2, kohiblad, int4, internal,
    internal, internal, internal) IS 'gin support';
COMMENT ON FUNCTION kohiblad_gin_extract(kohiblad, internal, internal) IS 'gin support';
COMMENT ON FUNCTION kohiblad_gin_extract_query(kohiblad, internal, int2, internal,
    internal, internal, internal) IS 'gin support';
COMMENT ON FUNCTION kohiblad_gin_extract_values(kohiblad, internal, internal) IS 'gin support';
COMMENT ON FUNCTION kohiblad_gin_triconsistent(internal, int2, kohiblad, int4, internal,
    internal, internal) IS 'gin support';
COMMENT ON FUNCTION kohiblad_gt(kohiblad, kohiblad) IS 'implementation of > operator';
COMMENT ON FUNCTION kohiblad_hash(kohiblad) IS 'hash';
COMMENT ON FUNCTION kohiblad_hash_extended(kohiblad, int8) IS 'hash of 64 bits, by a seed';
COMMENT ON FUNCTION kohiblad_in(cstring) IS 'I/O';
COMMENT ON FUNCTION kohiblad_insert(kohiblad, text[], kohiblad, bool)
    IS 'document with a value put in at a path';
COMMENT ON FUNCTION kohiblad_item(kohiblad, int4) IS 'implementation of -> operator';
COMMENT ON FUNCTION kohiblad_item_text(kohiblad, int4) IS 'implementation of ->> operator';
COMMENT ON FUNCTION kohiblad_key(kohiblad) IS 'comparable key, whose bytes sort as documents do';
COMMENT ON FUNCTION kohiblad_kind(kohiblad) IS 'kind of a document';
COMMENT ON FUNCTION kohiblad_larger(kohiblad, kohiblad) IS 'greater of two documents';
COMMENT ON FUNCTION kohiblad_le(kohiblad, kohiblad) IS 'implementation of <= operator';
COMMENT ON FUNCTION kohiblad_length(kohiblad) IS 'number of items or pairs, NULL for a scalar';
COMMENT ON FUNCTION kohiblad_lt(kohiblad, kohiblad) IS 'implementation of < operator';
COMMENT ON FUNCTION kohiblad_member(kohiblad, text) IS 'implementation of -> operator';
COMMENT ON FUNCTION kohiblad_member_text(kohiblad, text) IS 'implementation of ->> operator';
COMMENT ON FUNCTION kohiblad_merge_patch(kohiblad, kohiblad)
    IS 'document changed by a JSON Merge Patch';
COMMENT ON FUNCTION kohiblad_ne(kohiblad, kohiblad) IS 'implementation of <> operator';
COMMENT ON FUNCTION kohiblad_object(text[]) IS 'object of an array of keys and values, as strings';
COMMENT ON FUNCTION kohiblad_object(text[], text[])
    IS 'object of an array of keys and one of values, as strings';
COMMENT ON FUNCTION kohiblad_object_agg_final(internal) IS 'aggregate final function';
COMMENT ON FUNCTION kohiblad_object_agg_step(internal, "any", "any")
    IS 'aggregate transition function';
COMMENT ON FUNCTION kohiblad_object_agg_step(internal, text, kohiblad)
    IS 'aggregate transition function';
COMMENT ON FUNCTION kohiblad_object_keys(kohiblad) IS 'row for each key of an object';
COMMENT ON FUNCTION kohiblad_out(kohiblad) IS 'I/O';
COMMENT ON FUNCTION kohiblad_path(kohiblad, text[]) IS 'implementation of #> operator';
COMMENT ON FUNCTION kohiblad_path_exists(kohiblad, jsonpath, kohiblad, bool)
    IS 'whether a path of SQL/JSON finds anything';
COMMENT ON FUNCTION kohiblad_path_exists_opr(kohiblad, jsonpath) IS 'implementation of @? operator';
COMMENT ON FUNCTION kohiblad_path_exists_tz(kohiblad, jsonpath, kohiblad, bool)
    IS 'whether a path of SQL/JSON finds anything, with the time zone of the session';
COMMENT ON FUNCTION kohiblad_path_match(kohiblad, jsonpath, kohiblad, bool)
    IS 'what the predicate of a path of SQL/JSON says';
COMMENT ON FUNCTION kohiblad_path_match_opr(kohiblad, jsonpath) IS 'implementation of @@ operator';
COMMENT ON FUNCTION kohiblad_path_match_tz(kohiblad, jsonpath, kohiblad, bool)
    IS 'what the predicate of a path of SQL/JSON says, with the time zone of the session';
COMMENT ON FUNCTION kohiblad_path_query(kohiblad, jsonpath, kohiblad, bool)
    IS 'row for each value that a path of SQL/JSON finds';
COMMENT ON FUNCTION kohiblad_path_query_array(kohiblad, jsonpath, kohiblad, bool)
    IS 'array of what a path of SQL/JSON finds';
COMMENT ON FUNCTION kohiblad_path_query_array_tz(kohiblad, jsonpath, kohiblad, bool)
    IS 'array of what a path of SQL/JSON finds, with the time zone of the session';
COMMENT ON FUNCTION kohiblad_path_query_first(kohiblad, jsonpath, kohiblad, bool)
    IS 'first value that a path of SQL/JSON finds';
COMMENT ON FUNCTION kohiblad_path_query_first_tz(kohiblad, jsonpath, kohiblad, bool)
    IS 'first value that a path of SQL/JSON finds, with the time zone of the session';
COMMENT ON FUNCTION kohiblad_path_query_tz(kohiblad, jsonpath, kohiblad, bool)
    IS 'row for each value that a path of SQL/JSON finds, with the time zone of the session';
COMMENT ON FUNCTION kohiblad_path_text(kohiblad, text[]) IS 'implementation of #>> operator';
COMMENT ON FUNCTION kohiblad_populate_record(anyelement, kohiblad)
    IS 'record of an object, with defaults';
COMMENT ON FUNCTION kohiblad_populate_recordset(anyelement, kohiblad)
    IS 'record of each object of an array, with defaults';
COMMENT ON FUNCTION kohiblad_pretty(kohiblad) IS 'indented text';
COMMENT ON FUNCTION kohiblad_recv(internal) IS 'I/O';
COMMENT ON FUNCTION kohiblad_rows_combine(internal, internal) IS 'aggregate combine function';
COMMENT ON FUNCTION kohiblad_rows_deserialize(bytea, internal) IS 'aggregate deserial function';
COMMENT ON FUNCTION kohiblad_rows_serialize(internal) IS 'aggregate serial function';
COMMENT ON FUNCTION kohiblad_send(kohiblad) IS 'I/O';
COMMENT ON FUNCTION kohiblad_set(kohiblad, text[], kohiblad, bool)
    IS 'document with a value put at a path';
COMMENT ON FUNCTION kohiblad_set_lax(kohiblad, text[], kohiblad, bool, text)
    IS 'document with a value put at a path, or with what is said for NULL';
COMMENT ON FUNCTION kohiblad_smaller(kohiblad, kohiblad) IS 'lesser of two documents';
COMMENT ON FUNCTION kohiblad_sortsupport(internal) IS 'sort support';
COMMENT ON FUNCTION kohiblad_strip_nulls(kohiblad) IS 'document without members that are null';
COMMENT ON FUNCTION kohiblad_subscript(internal) IS 'subscripting support';
COMMENT ON FUNCTION kohiblad_survey_combine(internal, internal) IS 'aggregate combine function';
COMMENT ON FUNCTION kohiblad_survey_deserialize(bytea, internal) IS 'aggregate deserial function';
COMMENT ON FUNCTION kohiblad_survey_final(internal) IS 'aggregate final function';
COMMENT ON FUNCTION kohiblad_survey_serialize(internal) IS 'aggregate serial function';
COMMENT ON FUNCTION kohiblad_survey_step(internal, kohiblad, kohiblad)
    IS 'aggregate transition function';
COMMENT ON FUNCTION kohiblad_to_bool(kohiblad) IS 'truth value of a document';
COMMENT ON FUNCTION kohiblad_to_float4(kohiblad) IS 'nearest float of a number';
COMMENT ON FUNCTION kohiblad_to_float8(kohiblad) IS 'nearest float of a number';
COMMENT ON FUNCTION kohiblad_to_int2(kohiblad) IS 'number, rounded to a whole one';
COMMENT ON FUNCTION kohiblad_to_int4(kohiblad) IS 'number, rounded to a whole one';
COMMENT ON FUNCTION kohiblad_to_int8(kohiblad) IS 'number, rounded to a whole one';
COMMENT ON FUNCTION kohiblad_to_json(kohiblad) IS 'document as json';
COMMENT ON FUNCTION kohiblad_to_jsonb(kohiblad) IS 'document as jsonb';
COMMENT ON FUNCTION kohiblad_to_numeric(kohiblad) IS 'number of a document';
COMMENT ON FUNCTION kohiblad_to_record(kohiblad)
    IS 'record of an object, whose columns the query lists';
COMMENT ON FUNCTION kohiblad_to_recordset(kohiblad)
    IS 'record of each object of an array, whose columns the query lists';
COMMENT ON FUNCTION kohiblad_to_tsvector(regconfig, kohiblad, kohiblad)
    IS 'words of the parts of a document that a filter names';
COMMENT ON FUNCTION kohiblad_to_tsvector(kohiblad, kohiblad)
    IS 'words of the parts of a document that a filter names';
COMMENT ON FUNCTION kohiblad_typeof(kohiblad) IS 'kind of a document';
COMMENT ON FUNCTION kohiblad_version() IS 'version of the library';
COMMENT ON FUNCTION to_kohiblad(anyelement) IS 'document of any value';
COMMENT ON FUNCTION to_tsvector(regconfig, kohiblad) IS 'words of the strings of a document';
COMMENT ON FUNCTION to_tsvector(kohiblad) IS 'words of the strings of a document';
COMMENT ON FUNCTION ts_headline(regconfig, kohiblad, tsquery)
    IS 'document whose strings show the words of a query';
COMMENT ON FUNCTION ts_headline(regconfig, kohiblad, tsquery, text)
    IS 'document whose strings show the words of a query';
COMMENT ON FUNCTION ts_headline(kohiblad, tsquery)
    IS 'document whose strings show the words of a query';
COMMENT ON FUNCTION ts_headline(kohiblad, tsquery, text)
    IS 'document whose strings show the words of a query';

COMMENT ON AGGREGATE kohiblad_agg(anyelement) IS 'array of the documents of any values';
COMMENT ON AGGREGATE kohiblad_agg(jsonb) IS 'array of values of jsonb, as documents';
COMMENT ON AGGREGATE kohiblad_agg(kohiblad) IS 'array of documents';
COMMENT ON AGGREGATE kohiblad_object_agg("any", "any") IS 'object of keys and values of any types';
COMMENT ON AGGREGATE kohiblad_object_agg(text, kohiblad) IS 'object of keys and documents';
COMMENT ON AGGREGATE kohiblad_survey(kohiblad, kohiblad)
    IS 'what the values at a path are, in all rows';
COMMENT ON AGGREGATE max(kohiblad) IS 'greatest document';
COMMENT ON AGGREGATE min(kohiblad) IS 'least document';

COMMENT ON CAST (int8 AS kohiblad) IS 'document of a whole number';
COMMENT ON CAST (bool AS kohiblad) IS 'document of a truth value';
COMMENT ON CAST (int4 AS kohiblad) IS 'document of a whole number';
COMMENT ON CAST (numeric AS kohiblad) IS 'document of a number';
COMMENT ON CAST (bytea AS kohiblad) IS 'document that has these bytes, which are checked';
COMMENT ON CAST (json AS kohiblad) IS 'document of a JSON text';
COMMENT ON CAST (jsonb AS kohiblad) IS 'document of a value of jsonb';
COMMENT ON CAST (kohiblad AS int8) IS 'number, rounded to a whole one';
COMMENT ON CAST (kohiblad AS bool) IS 'truth value of a document';
COMMENT ON CAST (kohiblad AS float8) IS 'nearest float of a number';
COMMENT ON CAST (kohiblad AS int4) IS 'number, rounded to a whole one';
COMMENT ON CAST (kohiblad AS numeric) IS 'number of a document';
COMMENT ON CAST (kohiblad AS bytea) IS 'stored bytes';
COMMENT ON CAST (kohiblad AS json) IS 'document as json';
COMMENT ON CAST (kohiblad AS jsonb) IS 'document as jsonb';
COMMENT ON CAST (kohiblad AS float4) IS 'nearest float of a number';
COMMENT ON CAST (kohiblad AS int2) IS 'number, rounded to a whole one';
COMMENT ON CAST (int2 AS kohiblad) IS 'document of a whole number';

COMMENT ON OPERATOR CLASS kohiblad_minmax_ops USING brin IS 'order of documents, for BRIN';
COMMENT ON OPERATOR CLASS kohiblad_ops USING btree IS 'order of documents';
COMMENT ON OPERATOR CLASS kohiblad_ops USING gin
    IS 'containment, keys that exist and paths of SQL/JSON';
COMMENT ON OPERATOR CLASS kohiblad_ops USING hash IS 'equality of documents';
COMMENT ON OPERATOR CLASS kohiblad_path_ops USING gin
    IS 'containment and paths of SQL/JSON, in less room';
COMMENT ON OPERATOR FAMILY kohiblad_minmax_ops USING brin IS 'order of documents, for BRIN';
COMMENT ON OPERATOR FAMILY kohiblad_ops USING btree IS 'order of documents';
COMMENT ON OPERATOR FAMILY kohiblad_ops USING gin
    IS 'containment, keys that exist and paths of SQL/JSON';
COMMENT ON OPERATOR FAMILY kohiblad_ops USING hash IS 'equality of documents';
COMMENT ON OPERATOR FAMILY kohiblad_path_ops USING gin
    IS 'containment and paths of SQL/JSON, in less room';
