\set ECHO none \a \t
-- The order of jsonb: its operators, its class for B-trees, and ORDER BY.
SET client_min_messages = warning;
CREATE EXTENSION kohiblad_compat;
SELECT amvalidate(oid) FROM pg_opclass WHERE opcname = 'jsonb_order_ops';
CREATE SCHEMA shop;
-- By the server's page on jsonb: an empty array, null, strings, numbers, booleans, arrays by their
-- length, objects by their number of pairs, whose shorter keys are compared first.
CREATE TABLE shop.ranked (place int, d kohiblad);
INSERT INTO shop.ranked SELECT place, d::kohiblad FROM (VALUES
    (2, '[]'), (3, 'null'), (4, '""'), (5, '"A"'), (6, '"a"'), (7, '"aa"'), (8, '"b"'),
    (9, '"é"'), (10, '-18446744073709551616'), (11, '-1.5'), (12, '0'), (13, '5'), (13, '5.00'),
    (14, '10'), (15, 'false'), (16, 'true'), (17, '[null]'), (18, '["x"]'), (19, '[3]'),
    (20, '[true]'), (21, '[[]]'), (22, '[[null]]'), (23, '[[1,2]]'), (24, '[{}]'),
    (25, '[null,null]'), (26, '[1,2]'), (27, '[1,3]'), (28, '[1,2,0]'), (29, '{}'),
    (30, '{"a":1}'), (31, '{"a":2}'), (32, '{"a":true}'), (33, '{"aa":0}'), (34, '{"b":0}'),
    (35, '{"a":1,"b":0}'), (36, '{"b":1,"d":1}'), (37, '{"aa":1,"c":1}'), (38, '{"aa":1,"c":2}'),
    (39, '{"aa":2,"c":2}'), (40, '{"a":0,"b":0,"c":0}')) v(place, d) ORDER BY md5(d);
CREATE FUNCTION differ_from_places() RETURNS bigint LANGUAGE sql
SET search_path = shop, kohiblad_compat, public AS $$
    SELECT count(*) FROM ranked a, ranked b WHERE (a.d < b.d) <> (a.place < b.place)
        OR (a.d <= b.d) <> (a.place <= b.place) OR (a.d = b.d) <> (a.place = b.place)
        OR (a.d <> b.d) <> (a.place <> b.place) OR (a.d >= b.d) <> (a.place >= b.place)
        OR (a.d > b.d) <> (a.place > b.place)
        OR jsonb_order_cmp(a.d, b.d) <> sign(a.place - b.place)
$$;
SELECT differ_from_places();
SELECT count(*) FROM shop.ranked a, shop.ranked b
WHERE sign(jsonb_cmp(a.d::jsonb, b.d::jsonb)) <> sign(a.place - b.place);
-- Extension values, which jsonb has not, come first.
INSERT INTO shop.ranked VALUES (1, '\x20000000600000051000000001');
SELECT differ_from_places();
-- The session's path says which operators are meant, also for literals, parameters and a jsonb.
CREATE TABLE shop.orders AS SELECT i AS id, CASE i % 5 WHEN 0 THEN '{"total": "n/a"}'
        WHEN 1 THEN '{"total": null}' WHEN 2 THEN '{}' WHEN 3 THEN '{"total": [1]}'
        ELSE jsonb_build_object('total', i) END::kohiblad AS doc
    FROM generate_series(1, 50) i;
CREATE TABLE shop.before AS SELECT id, doc::jsonb AS doc FROM shop.orders;
CREATE TABLE shop.conditions (number int GENERATED ALWAYS AS IDENTITY, condition text);
\copy shop.conditions (condition) FROM STDIN
doc -> 'total' > '20'
'20' < doc -> 'total'
doc -> 'total' >= '[0, 0]'
doc -> 'total' < '20'::jsonb
to_jsonb(20) <= doc -> 'total'
doc -> 'total' BETWEEN '"a"' AND '30'
NOT doc -> 'total' > 'null'
(doc -> 'total', id) > ('24', 7)
doc -> 'total' = '24'
doc -> 'total' <> '24'
doc > '{}'
\.
CREATE FUNCTION found(condition text, documents text, path text) RETURNS text LANGUAGE plpgsql AS $$
DECLARE
    ids text;
BEGIN
    PERFORM set_config('search_path', path, true);
    EXECUTE format('SELECT array_agg(id ORDER BY id) FROM %s WHERE %s', documents, condition)
        INTO ids;
    RETURN ids;
END $$;
SELECT number, found(condition, 'before', 'shop, public') IS NOT DISTINCT FROM
        found(condition, 'orders', 'shop, kohiblad_compat, public') AS with_the_schema,
    found(condition, 'before', 'shop, public') IS NOT DISTINCT FROM
        found(condition, 'orders', 'shop, public') AS without_it
FROM shop.conditions ORDER BY number;
SET search_path = shop, kohiblad_compat, public;
PREPARE above AS SELECT count(*) FROM orders WHERE doc -> 'total' > $1;
EXECUTE above('20');
SET search_path = shop, public;
EXECUTE above('20');
-- ORDER BY: by an operator that it names, and by the default of the type, which an extension sets.
CREATE VIEW shop.sorted AS SELECT place FROM shop.ranked ORDER BY d;
SELECT string_agg(place::text, ' ' ORDER BY d USING OPERATOR(kohiblad_compat.<)) FROM ranked;
SET search_path = shop, kohiblad_compat, public;
SELECT string_agg(place::text, ' ' ORDER BY d USING >) FROM ranked WHERE place < 9;
SELECT string_agg(place::text, ' ' ORDER BY d) FROM ranked WHERE place < 16;
CREATE INDEX by_documents ON ranked (d);
CREATE EXTENSION kohiblad_jsonb_order;
SELECT string_agg(place::text, ' ' ORDER BY d) FROM ranked;
SELECT string_agg(place::text, ' ' ORDER BY d DESC) FROM ranked WHERE place < 9;
SELECT array_agg(id ORDER BY doc -> 'total', id) =
    (SELECT array_agg(id ORDER BY doc -> 'total', id) FROM before) FROM orders;
SELECT string_agg(place::text, ' ') FROM (SELECT DISTINCT ON (d) place FROM ranked ORDER BY d) s;
SELECT greatest('[]'::kohiblad, 'null', '7', '"a"'), least('[]'::kohiblad, 'null', '7', '"a"');
SELECT array_agg(place ORDER BY number) = array_agg(place ORDER BY d, place)
FROM (SELECT place, d, row_number() OVER (ORDER BY d, place) AS number FROM ranked) s;
-- A view keeps the order that it was made with, and an index its class; both say so.
SELECT pg_get_viewdef('sorted') ~ 'USING OPERATOR\(public\.<\)';
SELECT pg_get_indexdef('by_documents'::regclass);
SELECT string_agg(place::text, ' ') FROM (SELECT * FROM sorted WHERE place < 16) s;
-- Indexes of the class are used for these operators and orders, and for equality.
CREATE TABLE many AS SELECT i, CASE i % 3 WHEN 0 THEN to_jsonb(i) WHEN 1 THEN to_jsonb('t' || i)
        ELSE jsonb_build_array(i) END::kohiblad AS d
    FROM generate_series(1, 20000) i ORDER BY md5(i::text);
CREATE INDEX by_jsonb ON many (d);
ANALYZE many;
SELECT pg_get_indexdef('by_jsonb'::regclass);
SELECT plan_has($$ SELECT * FROM many WHERE d > '"t9990"' AND d < '5' $$, 'by_jsonb'),
    plan_has($$ SELECT * FROM many WHERE d = '19995' $$, 'by_jsonb'),
    plan_has($$ SELECT i FROM many ORDER BY d LIMIT 9 $$, 'using by_jsonb'),
    plan_has($$ SELECT * FROM many WHERE d OPERATOR(public.>) '[19999]' $$, 'by_jsonb');
SELECT string_agg(d::text, ' ' ORDER BY i) FROM many WHERE d > '"t9990"' AND d < '5';
SELECT i FROM many WHERE d = '19995.0';
SET enable_indexscan = off;
SET enable_bitmapscan = off;
SET enable_indexonlyscan = off;
SELECT string_agg(d::text, ' ' ORDER BY i) FROM many WHERE d > '"t9990"' AND d < '5';
SELECT array_agg(i ORDER BY d) = array_agg(i ORDER BY d::jsonb) FROM many;
RESET enable_indexscan;
RESET enable_bitmapscan;
RESET enable_indexonlyscan;
SET enable_nestloop = off;
SET enable_hashjoin = off;
SELECT plan_has('SELECT * FROM many a JOIN many b ON a.d = b.d', 'Merge Join'),
    (SELECT count(*) FROM many a JOIN many b ON a.d = b.d);
RESET enable_nestloop;
RESET enable_hashjoin;
-- Without the extension the default is what it was.
SELECT refusal('DROP EXTENSION kohiblad_compat') ~ '^2BP01 ';
DROP EXTENSION kohiblad_jsonb_order;
SELECT string_agg(place::text, ' ' ORDER BY d) FROM ranked WHERE place < 16;
SELECT pg_get_indexdef('by_documents'::regclass);
SELECT pg_get_indexdef('by_jsonb'::regclass);
-- Where both are dropped at once, it is set once kohiblad_compat is there again.
CREATE EXTENSION kohiblad_jsonb_order;
DROP EXTENSION kohiblad_compat CASCADE;
SELECT refusal('SELECT d FROM ranked ORDER BY d');
CREATE EXTENSION kohiblad_compat SCHEMA public;
SELECT string_agg(place::text, ' ' ORDER BY d) FROM ranked WHERE place < 16;
-- Random documents.
SELECT setseed(0.13) IS NOT NULL;
CREATE TABLE texts AS SELECT random_text(2) AS text FROM generate_series(1, 300);
INSERT INTO texts SELECT format('{"k":[%s],"%s":1}', random_text(1), one_of('{a,aa,b,é,z,0}'))
    FROM generate_series(1, 100);
INSERT INTO texts SELECT format('[[%s,2],%s]', random_text(1), one_of('{1,2,"null","\"x\""}'))
    FROM generate_series(1, 100);
CREATE TABLE both_types AS SELECT text::jsonb AS j, text::kohiblad AS k FROM texts;
SELECT count(*), count(*) FILTER (WHERE sign(jsonb_cmp(a.j, b.j)) <> jsonb_order_cmp(a.k, b.k)),
    count(*) FILTER (WHERE (a.j < b.j) <> (a.k < b.k) OR (a.j >= b.j) <> (a.k >= b.k)),
    count(*) FILTER (WHERE (a.j = b.j) <> (a.k = b.k)) FROM both_types a, both_types b;
-- Nested as deep as can be, and with many members, of which the last in the order of keys differs.
SELECT a < b, a > b, a <= a FROM (SELECT nested_text(1000)::kohiblad AS a,
    (repeat('[', 999) || '7' || repeat(']', 999))::kohiblad AS b) s;
SELECT a < b, a > b, a <= a FROM (SELECT (repeat('{"a":', 999) || '7' || repeat('}', 999))::kohiblad
    AS a, (repeat('{"a":', 999) || '8' || repeat('}', 999))::kohiblad AS b) s;
CREATE TABLE wide AS SELECT kohiblad_object_agg('k' || i, i) AS d,
    kohiblad_object_agg('k' || i, i + i / 200000) AS e FROM generate_series(1, 200000) i;
SELECT d < e, d > e, d <= d FROM wide;
-- Members of equal values with other bytes, in many levels and among many members.
SELECT jsonb_order_cmp(kohiblad_build_object('x', a, 'yy', i),
                       kohiblad_build_object('x', b, 'yy', 1))
FROM (SELECT (repeat('{"a":', 900) || '5' || repeat(',"b":0}', 900))::kohiblad AS a,
    (repeat('{"a":', 900) || '5.0' || repeat(',"b":0}', 900))::kohiblad AS b) s,
    generate_series(0, 2) i ORDER BY i;
SELECT jsonb_order_cmp(a || kohiblad_build_object('last', i), b || '{"last":1}')
FROM (SELECT kohiblad_object_agg('k' || i, 5) AS a, kohiblad_object_agg('k' || i, 5.0) AS b
    FROM generate_series(1, 10000) i) s, generate_series(0, 2) i ORDER BY i;
RESET search_path;
DROP EXTENSION kohiblad_compat CASCADE;
DROP SCHEMA shop CASCADE;
DROP FUNCTION differ_from_places, found;
