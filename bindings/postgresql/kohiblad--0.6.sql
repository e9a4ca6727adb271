\echo Use "CREATE EXTENSION kohiblad" to load this file. \quit

CREATE TYPE kohiblad;

CREATE FUNCTION kohiblad_in(cstring) RETURNS kohiblad
AS 'MODULE_PATHNAME', 'pg_kohiblad_in' LANGUAGE C STRICT IMMUTABLE PARALLEL SAFE;

CREATE FUNCTION kohiblad_out(kohiblad) RETURNS cstring
AS 'MODULE_PATHNAME', 'pg_kohiblad_out' LANGUAGE C STRICT IMMUTABLE PARALLEL SAFE;

CREATE FUNCTION kohiblad_recv(internal) RETURNS kohiblad
AS 'MODULE_PATHNAME', 'pg_kohiblad_recv' LANGUAGE C STRICT IMMUTABLE PARALLEL SAFE;

-- A stored value is the bytes of its document, so it is sent as bytea is.
CREATE FUNCTION kohiblad_send(kohiblad) RETURNS bytea
AS 'byteasend' LANGUAGE internal STRICT IMMUTABLE PARALLEL SAFE;

CREATE TYPE kohiblad (
    INPUT = kohiblad_in,
    OUTPUT = kohiblad_out,
    RECEIVE = kohiblad_recv,
    SEND = kohiblad_send,
    INTERNALLENGTH = VARIABLE,
    ALIGNMENT = int4,
    STORAGE = extended
);

-- Casts

CREATE FUNCTION kohiblad(bytea) RETURNS kohiblad
AS 'MODULE_PATHNAME', 'pg_kohiblad_of_bytea' LANGUAGE C STRICT IMMUTABLE PARALLEL SAFE;

CREATE CAST (bytea AS kohiblad) WITH FUNCTION kohiblad(bytea);
CREATE CAST (kohiblad AS bytea) WITHOUT FUNCTION;
CREATE CAST (json AS kohiblad) WITH INOUT AS ASSIGNMENT;
CREATE CAST (jsonb AS kohiblad) WITH INOUT AS ASSIGNMENT;
CREATE CAST (kohiblad AS json) WITH INOUT AS ASSIGNMENT;
CREATE CAST (kohiblad AS jsonb) WITH INOUT AS ASSIGNMENT;

-- Children

CREATE FUNCTION kohiblad_member(kohiblad, text) RETURNS kohiblad
AS 'MODULE_PATHNAME', 'pg_kohiblad_member' LANGUAGE C STRICT IMMUTABLE PARALLEL SAFE;

CREATE FUNCTION kohiblad_item(kohiblad, int4) RETURNS kohiblad
AS 'MODULE_PATHNAME', 'pg_kohiblad_item' LANGUAGE C STRICT IMMUTABLE PARALLEL SAFE;

CREATE FUNCTION kohiblad_member_text(kohiblad, text) RETURNS text
AS 'MODULE_PATHNAME', 'pg_kohiblad_member_text' LANGUAGE C STRICT IMMUTABLE PARALLEL SAFE;

CREATE FUNCTION kohiblad_item_text(kohiblad, int4) RETURNS text
AS 'MODULE_PATHNAME', 'pg_kohiblad_item_text' LANGUAGE C STRICT IMMUTABLE PARALLEL SAFE;

CREATE FUNCTION kohiblad_path(kohiblad, text[]) RETURNS kohiblad
AS 'MODULE_PATHNAME', 'pg_kohiblad_path' LANGUAGE C STRICT IMMUTABLE PARALLEL SAFE;

CREATE FUNCTION kohiblad_path_text(kohiblad, text[]) RETURNS text
AS 'MODULE_PATHNAME', 'pg_kohiblad_path_text' LANGUAGE C STRICT IMMUTABLE PARALLEL SAFE;

CREATE OPERATOR -> (LEFTARG = kohiblad, RIGHTARG = text, FUNCTION = kohiblad_member);
CREATE OPERATOR -> (LEFTARG = kohiblad, RIGHTARG = int4, FUNCTION = kohiblad_item);
CREATE OPERATOR ->> (LEFTARG = kohiblad, RIGHTARG = text, FUNCTION = kohiblad_member_text);
CREATE OPERATOR ->> (LEFTARG = kohiblad, RIGHTARG = int4, FUNCTION = kohiblad_item_text);
CREATE OPERATOR #> (LEFTARG = kohiblad, RIGHTARG = text[], FUNCTION = kohiblad_path);
CREATE OPERATOR #>> (LEFTARG = kohiblad, RIGHTARG = text[], FUNCTION = kohiblad_path_text);

CREATE FUNCTION kohiblad_each(kohiblad, OUT key text, OUT value kohiblad) RETURNS SETOF record
AS 'MODULE_PATHNAME', 'pg_kohiblad_each' LANGUAGE C STRICT IMMUTABLE PARALLEL SAFE ROWS 100;

-- Documents

CREATE FUNCTION kohiblad_kind(kohiblad) RETURNS text
AS 'MODULE_PATHNAME', 'pg_kohiblad_kind' LANGUAGE C STRICT IMMUTABLE PARALLEL SAFE;

CREATE FUNCTION kohiblad_length(kohiblad) RETURNS int4
AS 'MODULE_PATHNAME', 'pg_kohiblad_length' LANGUAGE C STRICT IMMUTABLE PARALLEL SAFE;

CREATE FUNCTION kohiblad_canonical(kohiblad) RETURNS kohiblad
AS 'MODULE_PATHNAME', 'pg_kohiblad_canonical' LANGUAGE C STRICT IMMUTABLE PARALLEL SAFE;

CREATE FUNCTION kohiblad_pretty(kohiblad) RETURNS text
AS 'MODULE_PATHNAME', 'pg_kohiblad_pretty' LANGUAGE C STRICT IMMUTABLE PARALLEL SAFE;

CREATE FUNCTION kohiblad_key(kohiblad) RETURNS bytea
AS 'MODULE_PATHNAME', 'pg_kohiblad_key' LANGUAGE C STRICT IMMUTABLE PARALLEL SAFE;

-- Order

CREATE FUNCTION kohiblad_lt(kohiblad, kohiblad) RETURNS bool
AS 'MODULE_PATHNAME', 'pg_kohiblad_lt' LANGUAGE C STRICT IMMUTABLE PARALLEL SAFE;

CREATE FUNCTION kohiblad_le(kohiblad, kohiblad) RETURNS bool
AS 'MODULE_PATHNAME', 'pg_kohiblad_le' LANGUAGE C STRICT IMMUTABLE PARALLEL SAFE;

CREATE FUNCTION kohiblad_eq(kohiblad, kohiblad) RETURNS bool
AS 'MODULE_PATHNAME', 'pg_kohiblad_eq' LANGUAGE C STRICT IMMUTABLE PARALLEL SAFE;

CREATE FUNCTION kohiblad_ne(kohiblad, kohiblad) RETURNS bool
AS 'MODULE_PATHNAME', 'pg_kohiblad_ne' LANGUAGE C STRICT IMMUTABLE PARALLEL SAFE;

CREATE FUNCTION kohiblad_ge(kohiblad, kohiblad) RETURNS bool
AS 'MODULE_PATHNAME', 'pg_kohiblad_ge' LANGUAGE C STRICT IMMUTABLE PARALLEL SAFE;

CREATE FUNCTION kohiblad_gt(kohiblad, kohiblad) RETURNS bool
AS 'MODULE_PATHNAME', 'pg_kohiblad_gt' LANGUAGE C STRICT IMMUTABLE PARALLEL SAFE;

CREATE FUNCTION kohiblad_cmp(kohiblad, kohiblad) RETURNS int4
AS 'MODULE_PATHNAME', 'pg_kohiblad_cmp' LANGUAGE C STRICT IMMUTABLE PARALLEL SAFE;

CREATE FUNCTION kohiblad_sortsupport(internal) RETURNS void
AS 'MODULE_PATHNAME', 'pg_kohiblad_sortsupport' LANGUAGE C STRICT IMMUTABLE PARALLEL SAFE;

CREATE FUNCTION kohiblad_hash(kohiblad) RETURNS int4
AS 'MODULE_PATHNAME', 'pg_kohiblad_hash' LANGUAGE C STRICT IMMUTABLE PARALLEL SAFE;

CREATE FUNCTION kohiblad_hash_extended(kohiblad, int8) RETURNS int8
AS 'MODULE_PATHNAME', 'pg_kohiblad_hash_extended' LANGUAGE C STRICT IMMUTABLE PARALLEL SAFE;

CREATE OPERATOR < (
    LEFTARG = kohiblad, RIGHTARG = kohiblad, FUNCTION = kohiblad_lt,
    COMMUTATOR = >, NEGATOR = >=,
    RESTRICT = scalarltsel, JOIN = scalarltjoinsel
);

CREATE OPERATOR <= (
    LEFTARG = kohiblad, RIGHTARG = kohiblad, FUNCTION = kohiblad_le,
    COMMUTATOR = >=, NEGATOR = >,
    RESTRICT = scalarlesel, JOIN = scalarlejoinsel
);

CREATE OPERATOR = (
    LEFTARG = kohiblad, RIGHTARG = kohiblad, FUNCTION = kohiblad_eq,
    COMMUTATOR = =, NEGATOR = <>,
    RESTRICT = eqsel, JOIN = eqjoinsel,
    HASHES, MERGES
);

CREATE OPERATOR <> (
    LEFTARG = kohiblad, RIGHTARG = kohiblad, FUNCTION = kohiblad_ne,
    COMMUTATOR = <>, NEGATOR = =,
    RESTRICT = neqsel, JOIN = neqjoinsel
);

CREATE OPERATOR >= (
    LEFTARG = kohiblad, RIGHTARG = kohiblad, FUNCTION = kohiblad_ge,
    COMMUTATOR = <=, NEGATOR = <,
    RESTRICT = scalargesel, JOIN = scalargejoinsel
);

CREATE OPERATOR > (
    LEFTARG = kohiblad, RIGHTARG = kohiblad, FUNCTION = kohiblad_gt,
    COMMUTATOR = <, NEGATOR = <=,
    RESTRICT = scalargtsel, JOIN = scalargtjoinsel
);

CREATE OPERATOR CLASS kohiblad_ops DEFAULT FOR TYPE kohiblad USING btree AS
    OPERATOR 1 <, OPERATOR 2 <=, OPERATOR 3 =, OPERATOR 4 >=, OPERATOR 5 >,
    FUNCTION 1 kohiblad_cmp(kohiblad, kohiblad),
    FUNCTION 2 kohiblad_sortsupport(internal);

CREATE OPERATOR CLASS kohiblad_ops DEFAULT FOR TYPE kohiblad USING hash AS
    OPERATOR 1 =,
    FUNCTION 1 kohiblad_hash(kohiblad),
    FUNCTION 2 kohiblad_hash_extended(kohiblad, int8);

-- Aggregates

CREATE FUNCTION kohiblad_agg_step(internal, kohiblad) RETURNS internal
AS 'MODULE_PATHNAME', 'pg_kohiblad_agg_step' LANGUAGE C IMMUTABLE PARALLEL SAFE;

CREATE FUNCTION kohiblad_agg_final(internal) RETURNS kohiblad
AS 'MODULE_PATHNAME', 'pg_kohiblad_agg_final' LANGUAGE C IMMUTABLE PARALLEL SAFE;

CREATE FUNCTION kohiblad_object_agg_step(internal, text, kohiblad) RETURNS internal
AS 'MODULE_PATHNAME', 'pg_kohiblad_object_agg_step' LANGUAGE C IMMUTABLE PARALLEL SAFE;

CREATE FUNCTION kohiblad_object_agg_final(internal) RETURNS kohiblad
AS 'MODULE_PATHNAME', 'pg_kohiblad_object_agg_final' LANGUAGE C IMMUTABLE PARALLEL SAFE;

CREATE AGGREGATE kohiblad_agg(kohiblad) (
    SFUNC = kohiblad_agg_step, STYPE = internal, FINALFUNC = kohiblad_agg_final, PARALLEL = SAFE
);

CREATE AGGREGATE kohiblad_object_agg(text, kohiblad) (
    SFUNC = kohiblad_object_agg_step, STYPE = internal, FINALFUNC = kohiblad_object_agg_final,
    PARALLEL = SAFE
);
