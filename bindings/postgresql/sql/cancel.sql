\set ECHO none \a \t
-- Queries that a timeout stops, and those that end well before it.
-- The answer of a query, or that it was cancelled, and whether either came within so many seconds.
CREATE FUNCTION answer_within(seconds float8, query text) RETURNS text LANGUAGE plpgsql AS $$
DECLARE
    start timestamptz = clock_timestamp();
    answer text;
BEGIN
    BEGIN
        EXECUTE query INTO answer;
    EXCEPTION
        WHEN query_canceled THEN answer := 'cancelled';
        WHEN OTHERS THEN answer := SQLSTATE || ' ' || SQLERRM;
    END;
    RETURN answer || CASE WHEN clock_timestamp() - start > make_interval(secs => seconds)
                          THEN ', too late' ELSE '' END;
END $$;

-- Keys that exist: 10,000 items, or members, and as many keys.
CREATE TABLE listed AS SELECT kohiblad_agg('i' || i) AS items,
    kohiblad_object_agg('i' || i, i) AS members, array_agg('i' || i) AS keys,
    array_agg('k' || i) AS others FROM generate_series(1, 10000) i;
SET statement_timeout = '1s';
SELECT items ?| others, items ?& keys, items ?| (others || keys), items ?& (keys || others)
FROM listed;
SELECT members ?| others, members ?& keys, members ?| (others || keys), members ?& (keys || others)
FROM listed;
RESET statement_timeout;
SELECT items ?| '{i1}', items ?& '{i1,i2,i3,i4,x}', items ?& '{i1,NULL,i10000}', items ?| '{NULL}',
    items ?& '{NULL}', items ?| '{}' FROM listed;
SELECT members ?| '{i1}', members ?& '{i1,i2,i3,i4,x}', members ?& '{i1,NULL,i10000}',
    members ?| '{NULL}', members ?& '{NULL}', members ?| '{}' FROM listed;
SELECT '"a"'::kohiblad ?| '{b,a}', '"a"'::kohiblad ?& '{b,a}', '5'::kohiblad ?| '{5}',
    '[["a"]]'::kohiblad ?| '{a}', '["é"]'::kohiblad ?& '{é,é}';
-- A key that is too long for the format is in no document.
SELECT '["a"]'::kohiblad ?| ARRAY[repeat('x', 268435456), 'a'],
    '["a"]'::kohiblad ?& ARRAY[repeat('x', 268435456), 'a'];
-- Containment that takes many steps is asked in parts.
CREATE FUNCTION pairs_of(numbers int[]) RETURNS kohiblad LANGUAGE sql AS $$
    SELECT kohiblad_agg(kohiblad_build_array(i, kohiblad_build_object('a', i)) ORDER BY n)
    FROM unnest(numbers) WITH ORDINALITY u(i, n)
$$;
CREATE TABLE paired AS SELECT pairs_of(array_agg(i)) AS pairs,
    pairs_of(array_agg(i ORDER BY i DESC)) AS reversed,
    pairs_of(array_agg(i ORDER BY i DESC) || 0) AS others FROM generate_series(1, 2000) i;
SELECT pairs @> reversed, pairs @> others, pairs @> (reversed || '{}') FROM paired;
SELECT kohiblad_build_object('x', pairs, 'y', 1) @> kohiblad_build_object('x', reversed, 'y', 1.0),
    kohiblad_build_object('x', pairs, 'y', 1) @> kohiblad_build_object('x', reversed, 'y', 2),
    kohiblad_build_array(0, '[1]'::kohiblad, pairs) @> kohiblad_build_array(reversed, 0)
FROM paired;
-- Texts that have more bytes than the steps that are allowed at first are sorted nevertheless.
CREATE TABLE long_texts AS SELECT kohiblad_agg(repeat(i::text, 12)) AS texts,
    kohiblad_agg(repeat(i::text, 12) ORDER BY i DESC) AS reversed FROM generate_series(1, 50000) i;
SET statement_timeout = '10s';
SELECT texts @> reversed, texts @> (reversed || '"x"'), texts @> (reversed || '[[]]')
FROM long_texts;
RESET statement_timeout;
-- It ends soon after a timeout, whenever that comes.
CREATE TABLE long_paired AS SELECT pairs_of(array_agg(i)) AS pairs,
    pairs_of(array_agg(i ORDER BY i DESC)) AS reversed FROM generate_series(1, 20000) i;
SET statement_timeout = '5s';
SELECT answer_within(7, 'SELECT pairs @> reversed FROM long_paired');
SET statement_timeout = '7s';
SELECT answer_within(9, 'SELECT pairs @> reversed FROM long_paired');
RESET statement_timeout;
-- So does a path that compares the items of two arrays.
SET statement_timeout = '1s';
SELECT answer_within(5, $$
    SELECT kohiblad_build_object('a', kohiblad_agg(i), 'b', kohiblad_agg(-i))
        @@ '$.a[*] < $.b[*]' FROM generate_series(1, 50000) i $$);
RESET statement_timeout;
-- And a long text that is indented: it is written a few bytes at a time, once.
CREATE TABLE indented AS SELECT (repeat('[', 900) || repeat('1,', 449999) || '1'
    || repeat(']', 900))::kohiblad AS d;
SET statement_timeout = '200ms';
SELECT answer_within(4, 'SELECT length(kohiblad_pretty(d)) FROM indented');
RESET statement_timeout;
DROP TABLE indented;
-- And a text of 100 MB that is parsed: in less than half of the time that all of it takes.
SELECT length(set_config('test.json', '[' || repeat('{"id":7,"price":1.50,"tags":["new","red"]},',
                                                    2400000) || '0]', false)) > 100000000;
SELECT extract(epoch FROM clock_timestamp()) AS start \gset
SELECT kohiblad_array_length(current_setting('test.json')::kohiblad);
SELECT extract(epoch FROM clock_timestamp()) - :start AS whole \gset
SET statement_timeout = '100ms';
SELECT answer_within(:whole / 2, $$ SELECT current_setting('test.json')::kohiblad IS NULL $$);
RESET statement_timeout;
RESET test.json;
-- And a comparison of objects in the order of jsonb, whose keys are sorted for it.
SET client_min_messages = warning;
CREATE EXTENSION kohiblad_compat;
CREATE TABLE many_members AS SELECT d || '{"z1": 1}' AS d, d || '{"z2": 1}' AS e
    FROM (SELECT kohiblad_object_agg('k' || i, i) AS d FROM generate_series(1, 1000000) i) made;
SET statement_timeout = '50ms';
SELECT answer_within(2, 'SELECT kohiblad_compat.jsonb_order_cmp(d, e) FROM many_members');
RESET statement_timeout;
DROP TABLE many_members;
DROP EXTENSION kohiblad_compat;
