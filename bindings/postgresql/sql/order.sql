\set ECHO none \a \t
-- docs/FORMAT.md: extension values, booleans, numbers, strings, objects, arrays, null.
CREATE TABLE ranked (place int, d kohiblad);
INSERT INTO ranked SELECT * FROM (VALUES
    (1, '\x20000000600000051000000001'::bytea::kohiblad),
    (2, 'false'), (3, 'true'),
    (4, '-18446744073709551616'), (5, '-1.5'), (6, '0'), (7, '0.001'), (8, '5'), (8, '5.0'),
    (9, '5.01'), (10, '10'), (11, '18446744073709551616'),
    (12, '""'), (13, '"A"'), (14, '"a"'), (15, '"a\u0000"'), (16, '"aa"'), (17, '"é"'),
    (18, '{}'), (19, '{"a":1}'), (20, '{"a":1,"b":0}'), (21, '{"a":2}'), (22, '{"aa":0}'),
    (23, '{"b":false}'), (24, '[]'), (25, '[1]'), (26, '[1,2]'), (27, '[1,[]]'), (28, '[2]'),
    (29, '["x"]'), (30, '[[]]'), (31, '[null]'), (32, 'null')) v ORDER BY md5(v::text);
SELECT string_agg(place::text, ' ' ORDER BY d) FROM ranked;
SELECT string_agg(place::text, ' ' ORDER BY d DESC) FROM ranked WHERE place < 9;
SELECT count(*) FROM ranked a, ranked b WHERE (a.d < b.d) <> (a.place < b.place)
    OR (a.d <= b.d) <> (a.place <= b.place) OR (a.d = b.d) <> (a.place = b.place)
    OR (a.d <> b.d) <> (a.place <> b.place) OR (a.d >= b.d) <> (a.place >= b.place)
    OR (a.d > b.d) <> (a.place > b.place)
    OR kohiblad_cmp(a.d, b.d) <> sign(a.place - b.place)
    OR (kohiblad_key(a.d) < kohiblad_key(b.d)) <> (a.place < b.place);
SELECT count(*) FROM (SELECT DISTINCT d FROM ranked) s;
SELECT count(*) FROM (SELECT d, count(*) FROM ranked GROUP BY d HAVING count(*) = 2) s;
SET enable_hashagg = off;
SELECT count(*) FROM (SELECT DISTINCT d FROM ranked) s;
RESET enable_hashagg;
-- Hashes of equal documents are equal, and the wide one extends the other.
SELECT kohiblad_hash('5') = kohiblad_hash('5.0'), kohiblad_hash('5') = kohiblad_hash('6');
SELECT kohiblad_hash_extended('[5.0]', 7) = kohiblad_hash_extended('[5]', 7);
SELECT kohiblad_hash_extended('[5]', 7) = kohiblad_hash_extended('[5]', 8);
SELECT count(*) FROM ranked
WHERE kohiblad_hash(d)::bit(32) <> kohiblad_hash_extended(d, 0)::bit(32);
-- NULL.
SELECT coalesce(d::text, 'none') FROM (VALUES (NULL), ('null'::kohiblad), ('1')) v(d) ORDER BY d;
SELECT (NULL::kohiblad < '1') IS NULL, kohiblad_cmp(NULL, '1') IS NULL;
-- Indexes.
CREATE TABLE rows_of AS
    SELECT i, format('{"id":%s,"town":"town %s"}', i, i % 100)::kohiblad AS d
    FROM generate_series(1, 20000) i ORDER BY md5(i::text);
CREATE INDEX by_doc ON rows_of (d);
CREATE INDEX by_id ON rows_of ((d -> 'id'));
CREATE INDEX by_town ON rows_of USING hash ((d -> 'town'));
ANALYZE rows_of;
SELECT plan_has($$ SELECT * FROM rows_of WHERE d = '{"id":5,"town":"town 5"}' $$, 'using by_doc');
SELECT i FROM rows_of WHERE d = '{"town":"town 5","id":5.0}';
SELECT plan_has($$ SELECT * FROM rows_of ORDER BY d LIMIT 3 $$, 'using by_doc');
SELECT i FROM rows_of ORDER BY d LIMIT 3;
SELECT i FROM rows_of ORDER BY d DESC LIMIT 1;
SELECT plan_has($$ SELECT * FROM rows_of WHERE d -> 'id' = '777' $$, 'by_id');
SELECT i FROM rows_of WHERE d -> 'id' = '777.00';
SELECT count(*) FROM rows_of WHERE d -> 'id' BETWEEN '10' AND '20.5';
SELECT plan_has($$ SELECT * FROM rows_of WHERE d -> 'town' = '"town 7"' $$, 'by_town');
SELECT count(*) FROM rows_of WHERE d -> 'town' = '"town 7"';
SELECT plan_has($$ SELECT count(*) FROM rows_of GROUP BY d -> 'town' $$, 'HashAggregate');
SELECT count(*) FROM (SELECT count(*) FROM rows_of GROUP BY d -> 'town') s;
-- Sorts: all rows, within little memory, and by parallel workers.
SET enable_indexscan = off;
SET enable_indexonlyscan = off;
SET enable_bitmapscan = off;
SELECT bool_and(i = place) FROM (SELECT i, row_number() OVER (ORDER BY d) AS place FROM rows_of) s;
SET work_mem = '64kB';
SELECT bool_and(i = place) FROM (SELECT i, row_number() OVER (ORDER BY d) AS place FROM rows_of) s;
RESET work_mem;
SELECT bool_and(i = 20001 - place)
FROM (SELECT i, row_number() OVER (ORDER BY d -> 'id' DESC) AS place FROM rows_of) s;
SELECT string_agg(i::text, ' ' ORDER BY place)
FROM (SELECT i, row_number() OVER (ORDER BY d -> 'town', i) AS place FROM rows_of) s
WHERE place < 4;
SET parallel_setup_cost = 0;
SET parallel_tuple_cost = 0;
SET min_parallel_table_scan_size = 0;
SELECT plan_has($$ SELECT i FROM rows_of ORDER BY d $$, 'Gather Merge');
SELECT bool_and(i = place)
FROM (SELECT i, row_number() OVER () AS place FROM (SELECT i FROM rows_of ORDER BY d) s) t;
RESET ALL;
-- Joins.
CREATE TABLE others AS
    SELECT i, (i::text || '.0')::kohiblad AS id FROM generate_series(19901, 20100) i;
ANALYZE others;
SET enable_nestloop = off;
SET enable_mergejoin = off;
SELECT plan_has($$ SELECT * FROM rows_of r JOIN others o ON r.d -> 'id' = o.id $$, 'Hash Join');
SELECT count(*), bool_and(r.i = o.i) FROM rows_of r JOIN others o ON r.d -> 'id' = o.id;
RESET enable_mergejoin;
SET enable_hashjoin = off;
SELECT plan_has($$ SELECT * FROM rows_of r JOIN others o ON r.d -> 'id' = o.id $$, 'Merge Join');
SELECT count(*), bool_and(r.i = o.i) FROM rows_of r JOIN others o ON r.d -> 'id' = o.id;
RESET ALL;
-- Conditions: what reads a few words comes before what reads all of a document.
SELECT plan_has($$ SELECT i FROM rows_of WHERE kohiblad_hash(d) = 7 AND (i + 1) % 2 = 0 $$,
                '= 0) AND (kohiblad_hash(d) = 7)');
SELECT plan_has($$ SELECT i FROM rows_of WHERE kohiblad_canonical(d) = '{}' AND d ->> 'id' LIKE '7%'
                   AND (i + 1) % 2 = 0 $$, '= 0) AND (kohiblad_canonical(d) = ');
