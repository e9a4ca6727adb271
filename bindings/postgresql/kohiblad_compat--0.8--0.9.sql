\echo Use "ALTER EXTENSION kohiblad_compat UPDATE" to load this file. \quit

-- What 0.8 declares calls the module that is installed. New is the order of jsonb: operators, which
-- a session takes that has their schema before the one of kohiblad in its search_path, and a class
-- for B-trees. They share `=` and `<>` with the order of documents: equal values are the same.

CREATE SCHEMA kohiblad_compat;
GRANT USAGE ON SCHEMA kohiblad_compat TO PUBLIC;

CREATE FUNCTION kohiblad_compat.jsonb_order_lt(kohiblad, kohiblad) RETURNS bool
AS 'MODULE_PATHNAME', 'pg_kohiblad_jsonb_order_lt' LANGUAGE C STRICT IMMUTABLE PARALLEL SAFE;

CREATE FUNCTION kohiblad_compat.jsonb_order_le(kohiblad, kohiblad) RETURNS bool
AS 'MODULE_PATHNAME', 'pg_kohiblad_jsonb_order_le' LANGUAGE C STRICT IMMUTABLE PARALLEL SAFE;

CREATE FUNCTION kohiblad_compat.jsonb_order_ge(kohiblad, kohiblad) RETURNS bool
AS 'MODULE_PATHNAME', 'pg_kohiblad_jsonb_order_ge' LANGUAGE C STRICT IMMUTABLE PARALLEL SAFE;

CREATE FUNCTION kohiblad_compat.jsonb_order_gt(kohiblad, kohiblad) RETURNS bool
AS 'MODULE_PATHNAME', 'pg_kohiblad_jsonb_order_gt' LANGUAGE C STRICT IMMUTABLE PARALLEL SAFE;

CREATE FUNCTION kohiblad_compat.jsonb_order_cmp(kohiblad, kohiblad) RETURNS int4
AS 'MODULE_PATHNAME', 'pg_kohiblad_jsonb_order_cmp' LANGUAGE C STRICT IMMUTABLE PARALLEL SAFE;

CREATE FUNCTION kohiblad_compat.jsonb_order_sortsupport(internal) RETURNS void
AS 'MODULE_PATHNAME',
    'pg_kohiblad_jsonb_order_sortsupport' LANGUAGE C STRICT IMMUTABLE PARALLEL SAFE;

CREATE OPERATOR kohiblad_compat.< (
    LEFTARG = kohiblad, RIGHTARG = kohiblad, FUNCTION = kohiblad_compat.jsonb_order_lt,
    COMMUTATOR = OPERATOR(kohiblad_compat.>), NEGATOR = OPERATOR(kohiblad_compat.>=),
    RESTRICT = scalarltsel, JOIN = scalarltjoinsel
);

CREATE OPERATOR kohiblad_compat.<= (
    LEFTARG = kohiblad, RIGHTARG = kohiblad, FUNCTION = kohiblad_compat.jsonb_order_le,
    COMMUTATOR = OPERATOR(kohiblad_compat.>=), NEGATOR = OPERATOR(kohiblad_compat.>),
    RESTRICT = scalarlesel, JOIN = scalarlejoinsel
);

CREATE OPERATOR kohiblad_compat.>= (
    LEFTARG = kohiblad, RIGHTARG = kohiblad, FUNCTION = kohiblad_compat.jsonb_order_ge,
    COMMUTATOR = OPERATOR(kohiblad_compat.<=), NEGATOR = OPERATOR(kohiblad_compat.<),
    RESTRICT = scalargesel, JOIN = scalargejoinsel
);

CREATE OPERATOR kohiblad_compat.> (
    LEFTARG = kohiblad, RIGHTARG = kohiblad, FUNCTION = kohiblad_compat.jsonb_order_gt,
    COMMUTATOR = OPERATOR(kohiblad_compat.<), NEGATOR = OPERATOR(kohiblad_compat.<=),
    RESTRICT = scalargtsel, JOIN = scalargtjoinsel
);

CREATE OPERATOR CLASS kohiblad_compat.jsonb_order_ops FOR TYPE kohiblad USING btree AS
    OPERATOR 1 kohiblad_compat.<, OPERATOR 2 kohiblad_compat.<=, OPERATOR 3 =,
    OPERATOR 4 kohiblad_compat.>=, OPERATOR 5 kohiblad_compat.>,
    FUNCTION 1 kohiblad_compat.jsonb_order_cmp(kohiblad, kohiblad),
    FUNCTION 2 kohiblad_compat.jsonb_order_sortsupport(internal);

-- ORDER BY without USING goes by the default class of a type. That of documents is the class above
-- while the extension kohiblad_jsonb_order is there, which says so in dumps too, and else that of
-- kohiblad.

CREATE FUNCTION kohiblad_compat.choose_default_order() RETURNS void
LANGUAGE sql SECURITY DEFINER SET search_path = pg_catalog, pg_temp
BEGIN ATOMIC
    WITH members AS (
        SELECT c.oid, (e.extname = 'kohiblad_compat') = EXISTS (
            SELECT FROM pg_catalog.pg_extension WHERE extname = 'kohiblad_jsonb_order') AS is_chosen
        FROM pg_catalog.pg_opclass c
            JOIN pg_catalog.pg_am a ON a.oid = c.opcmethod AND a.amname = 'btree'
            JOIN pg_catalog.pg_depend d
                ON d.classid = 'pg_catalog.pg_opclass'::regclass AND d.objid = c.oid
                AND d.refclassid = 'pg_catalog.pg_extension'::regclass AND d.deptype = 'e'
            JOIN pg_catalog.pg_extension e ON e.oid = d.refobjid
        WHERE e.extname IN ('kohiblad', 'kohiblad_compat'))
    UPDATE pg_catalog.pg_opclass c SET opcdefault = is_chosen FROM members m
    WHERE m.oid = c.oid AND c.opcdefault <> is_chosen;
END;

REVOKE EXECUTE ON FUNCTION kohiblad_compat.choose_default_order() FROM PUBLIC;

CREATE FUNCTION kohiblad_compat.choose_default_order_again() RETURNS event_trigger
LANGUAGE plpgsql SECURITY DEFINER SET search_path = pg_catalog, pg_temp AS $$
BEGIN
    PERFORM kohiblad_compat.choose_default_order();
END $$;

CREATE EVENT TRIGGER kohiblad_compat_default_order ON sql_drop
    WHEN TAG IN ('DROP EXTENSION', 'DROP OWNED')
    EXECUTE FUNCTION kohiblad_compat.choose_default_order_again();

SELECT kohiblad_compat.choose_default_order();

-- Descriptions, which psql shows by \dT+, \do+, \df+ and their like.

COMMENT ON EVENT TRIGGER kohiblad_compat_default_order
    IS 'choose the default order once an extension is dropped';
COMMENT ON SCHEMA kohiblad_compat IS 'order of jsonb for documents';

COMMENT ON OPERATOR kohiblad_compat.< (kohiblad, kohiblad) IS 'less than, in the order of jsonb';
COMMENT ON OPERATOR kohiblad_compat.<= (kohiblad, kohiblad)
    IS 'less than or equal, in the order of jsonb';
COMMENT ON OPERATOR kohiblad_compat.> (kohiblad, kohiblad) IS 'greater than, in the order of jsonb';
COMMENT ON OPERATOR kohiblad_compat.>= (kohiblad, kohiblad)
    IS 'greater than or equal, in the order of jsonb';

COMMENT ON FUNCTION kohiblad_compat.choose_default_order()
    IS 'make the default order of documents the one that extensions ask for';
COMMENT ON FUNCTION kohiblad_compat.choose_default_order_again()
    IS 'choose the default order once an extension is dropped';
COMMENT ON FUNCTION kohiblad_compat.jsonb_order_cmp(kohiblad, kohiblad)
    IS 'less than 0, 0 or more by the order of jsonb';
COMMENT ON FUNCTION kohiblad_compat.jsonb_order_ge(kohiblad, kohiblad)
    IS 'implementation of >= operator';
COMMENT ON FUNCTION kohiblad_compat.jsonb_order_gt(kohiblad, kohiblad)
    IS 'implementation of > operator';
COMMENT ON FUNCTION kohiblad_compat.jsonb_order_le(kohiblad, kohiblad)
    IS 'implementation of <= operator';
COMMENT ON FUNCTION kohiblad_compat.jsonb_order_lt(kohiblad, kohiblad)
    IS 'implementation of < operator';
COMMENT ON FUNCTION kohiblad_compat.jsonb_order_sortsupport(internal) IS 'sort support';
COMMENT ON FUNCTION jsonb_array_elements(text) IS 'row for each item of an array (given as text)';
COMMENT ON FUNCTION jsonb_array_elements(kohiblad) IS 'row for each item of an array';
COMMENT ON FUNCTION jsonb_array_elements_text(text)
    IS 'row for each item of an array, as text (given as text)';
COMMENT ON FUNCTION jsonb_array_elements_text(kohiblad) IS 'row for each item of an array, as text';
COMMENT ON FUNCTION jsonb_array_length(text) IS 'number of items of an array (given as text)';
COMMENT ON FUNCTION jsonb_array_length(kohiblad) IS 'number of items of an array';
COMMENT ON FUNCTION jsonb_concat(text, jsonb) IS 'documents put together (given as text)';
COMMENT ON FUNCTION jsonb_concat(kohiblad, kohiblad) IS 'documents put together';
COMMENT ON FUNCTION jsonb_contained(text, jsonb)
    IS 'whether a document is contained by another (given as text)';
COMMENT ON FUNCTION jsonb_contained(kohiblad, kohiblad)
    IS 'whether a document is contained by another';
COMMENT ON FUNCTION jsonb_contains(text, jsonb)
    IS 'whether a document contains another (given as text)';
COMMENT ON FUNCTION jsonb_contains(kohiblad, kohiblad) IS 'whether a document contains another';
COMMENT ON FUNCTION jsonb_delete(text, int4)
    IS 'document without a key, keys or an index (given as text)';
COMMENT ON FUNCTION jsonb_delete(text, text)
    IS 'document without a key, keys or an index (given as text)';
COMMENT ON FUNCTION jsonb_delete(text, text[])
    IS 'document without a key, keys or an index (given as text)';
COMMENT ON FUNCTION jsonb_delete(kohiblad, int4) IS 'document without a key, keys or an index';
COMMENT ON FUNCTION jsonb_delete(kohiblad, text) IS 'document without a key, keys or an index';
COMMENT ON FUNCTION jsonb_delete(kohiblad, text[]) IS 'document without a key, keys or an index';
COMMENT ON FUNCTION jsonb_delete_path(text, text[])
    IS 'document without what is at the end of a path (given as text)';
COMMENT ON FUNCTION jsonb_delete_path(kohiblad, text[])
    IS 'document without what is at the end of a path';
COMMENT ON FUNCTION jsonb_each(text) IS 'row for each member of an object (given as text)';
COMMENT ON FUNCTION jsonb_each(kohiblad) IS 'row for each member of an object or item of an array';
COMMENT ON FUNCTION jsonb_each_text(text)
    IS 'row for each member of an object, with its value as text (given as text)';
COMMENT ON FUNCTION jsonb_each_text(kohiblad)
    IS 'row for each member of an object or item of an array, with its value as text';
COMMENT ON FUNCTION jsonb_exists(text, text) IS 'whether a key exists (given as text)';
COMMENT ON FUNCTION jsonb_exists(kohiblad, text) IS 'whether a key exists';
COMMENT ON FUNCTION jsonb_exists_all(text, text[]) IS 'whether all keys exist (given as text)';
COMMENT ON FUNCTION jsonb_exists_all(kohiblad, text[]) IS 'whether all keys exist';
COMMENT ON FUNCTION jsonb_exists_any(text, text[]) IS 'whether any key exists (given as text)';
COMMENT ON FUNCTION jsonb_exists_any(kohiblad, text[]) IS 'whether any key exists';
COMMENT ON FUNCTION jsonb_extract_path(text, text[])
    IS 'value at the end of a path (given as text)';
COMMENT ON FUNCTION jsonb_extract_path(kohiblad, text[]) IS 'value at the end of a path';
COMMENT ON FUNCTION jsonb_extract_path_text(text, text[])
    IS 'value at the end of a path, as text (given as text)';
COMMENT ON FUNCTION jsonb_extract_path_text(kohiblad, text[])
    IS 'value at the end of a path, as text';
COMMENT ON FUNCTION jsonb_insert(text, text[], jsonb, bool)
    IS 'document with a value put in at a path (given as text)';
COMMENT ON FUNCTION jsonb_insert(kohiblad, text[], kohiblad, bool)
    IS 'document with a value put in at a path';
COMMENT ON FUNCTION jsonb_object_keys(text) IS 'row for each key of an object (given as text)';
COMMENT ON FUNCTION jsonb_object_keys(kohiblad) IS 'row for each key of an object';
COMMENT ON FUNCTION jsonb_path_exists(text, jsonpath, jsonb, bool)
    IS 'whether a path of SQL/JSON finds anything (given as text)';
COMMENT ON FUNCTION jsonb_path_exists(kohiblad, jsonpath, kohiblad, bool)
    IS 'whether a path of SQL/JSON finds anything';
COMMENT ON FUNCTION jsonb_path_exists_tz(text, jsonpath, jsonb, bool)
    IS 'whether a path of SQL/JSON finds anything, with a time zone (given as text)';
COMMENT ON FUNCTION jsonb_path_exists_tz(kohiblad, jsonpath, kohiblad, bool)
    IS 'whether a path of SQL/JSON finds anything, with the time zone of the session';
COMMENT ON FUNCTION jsonb_path_match(text, jsonpath, jsonb, bool)
    IS 'what the predicate of a path of SQL/JSON says (given as text)';
COMMENT ON FUNCTION jsonb_path_match(kohiblad, jsonpath, kohiblad, bool)
    IS 'what the predicate of a path of SQL/JSON says';
COMMENT ON FUNCTION jsonb_path_match_tz(text, jsonpath, jsonb, bool)
    IS 'what the predicate of a path of SQL/JSON says, with a time zone (given as text)';
COMMENT ON FUNCTION jsonb_path_match_tz(kohiblad, jsonpath, kohiblad, bool)
    IS 'what the predicate of a path of SQL/JSON says, with the time zone of the session';
COMMENT ON FUNCTION jsonb_path_query(text, jsonpath, jsonb, bool)
    IS 'row for each value that a path of SQL/JSON finds (given as text)';
COMMENT ON FUNCTION jsonb_path_query(kohiblad, jsonpath, kohiblad, bool)
    IS 'row for each value that a path of SQL/JSON finds';
COMMENT ON FUNCTION jsonb_path_query_array(text, jsonpath, jsonb, bool)
    IS 'array of what a path of SQL/JSON finds (given as text)';
COMMENT ON FUNCTION jsonb_path_query_array(kohiblad, jsonpath, kohiblad, bool)
    IS 'array of what a path of SQL/JSON finds';
COMMENT ON FUNCTION jsonb_path_query_array_tz(text, jsonpath, jsonb, bool)
    IS 'array of what a path of SQL/JSON finds, with the time zone of the session (given as text)';
COMMENT ON FUNCTION jsonb_path_query_array_tz(kohiblad, jsonpath, kohiblad, bool)
    IS 'array of what a path of SQL/JSON finds, with the time zone of the session';
COMMENT ON FUNCTION jsonb_path_query_first(text, jsonpath, jsonb, bool)
    IS 'first value that a path of SQL/JSON finds (given as text)';
COMMENT ON FUNCTION jsonb_path_query_first(kohiblad, jsonpath, kohiblad, bool)
    IS 'first value that a path of SQL/JSON finds';
COMMENT ON FUNCTION jsonb_path_query_first_tz(text, jsonpath, jsonb, bool)
    IS 'first value that a path of SQL/JSON finds, with a time zone (given as text)';
COMMENT ON FUNCTION jsonb_path_query_first_tz(kohiblad, jsonpath, kohiblad, bool)
    IS 'first value that a path of SQL/JSON finds, with the time zone of the session';
COMMENT ON FUNCTION jsonb_path_query_tz(text, jsonpath, jsonb, bool)
    IS 'row for each value that a path of SQL/JSON finds, with a time zone (given as text)';
COMMENT ON FUNCTION jsonb_path_query_tz(kohiblad, jsonpath, kohiblad, bool)
    IS 'row for each value that a path of SQL/JSON finds, with the time zone of the session';
COMMENT ON FUNCTION jsonb_populate_record(anyelement, text)
    IS 'record of an object, with defaults (given as text)';
COMMENT ON FUNCTION jsonb_populate_record(anyelement, kohiblad)
    IS 'record of an object, with defaults';
COMMENT ON FUNCTION jsonb_populate_recordset(anyelement, text)
    IS 'record of each object of an array, with defaults (given as text)';
COMMENT ON FUNCTION jsonb_populate_recordset(anyelement, kohiblad)
    IS 'record of each object of an array, with defaults';
COMMENT ON FUNCTION jsonb_pretty(text) IS 'indented text (given as text)';
COMMENT ON FUNCTION jsonb_pretty(kohiblad) IS 'indented text';
COMMENT ON FUNCTION jsonb_set(text, text[], jsonb, bool)
    IS 'document with a value put at a path (given as text)';
COMMENT ON FUNCTION jsonb_set(kohiblad, text[], kohiblad, bool)
    IS 'document with a value put at a path';
COMMENT ON FUNCTION jsonb_set_lax(text, text[], jsonb, bool, text)
    IS 'document with a value put at a path, or with what is said for NULL (given as text)';
COMMENT ON FUNCTION jsonb_set_lax(kohiblad, text[], kohiblad, bool, text)
    IS 'document with a value put at a path, or with what is said for NULL';
COMMENT ON FUNCTION jsonb_strip_nulls(text)
    IS 'document without members that are null (given as text)';
COMMENT ON FUNCTION jsonb_strip_nulls(kohiblad) IS 'document without members that are null';
COMMENT ON FUNCTION jsonb_to_record(text)
    IS 'record of an object, whose columns the query lists (given as text)';
COMMENT ON FUNCTION jsonb_to_record(kohiblad)
    IS 'record of an object, whose columns the query lists';
COMMENT ON FUNCTION jsonb_to_recordset(text)
    IS 'record of each object of an array, whose columns the query lists (given as text)';
COMMENT ON FUNCTION jsonb_to_recordset(kohiblad)
    IS 'record of each object of an array, whose columns the query lists';
COMMENT ON FUNCTION jsonb_to_tsvector(regconfig, text, jsonb)
    IS 'words of the parts of a document that a filter names (given as text)';
COMMENT ON FUNCTION jsonb_to_tsvector(regconfig, kohiblad, kohiblad)
    IS 'words of the parts of a document that a filter names';
COMMENT ON FUNCTION jsonb_to_tsvector(text, jsonb)
    IS 'words of the parts of a document that a filter names (given as text)';
COMMENT ON FUNCTION jsonb_to_tsvector(kohiblad, kohiblad)
    IS 'words of the parts of a document that a filter names';
COMMENT ON FUNCTION jsonb_typeof(text) IS 'kind of a document (given as text)';
COMMENT ON FUNCTION jsonb_typeof(kohiblad) IS 'kind of a document';

COMMENT ON OPERATOR CLASS kohiblad_compat.jsonb_order_ops USING btree IS 'order of jsonb';
COMMENT ON OPERATOR FAMILY kohiblad_compat.jsonb_order_ops USING btree IS 'order of jsonb';
