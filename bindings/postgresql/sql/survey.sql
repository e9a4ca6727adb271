\set ECHO none \a \t
-- kohiblad_survey: what the members of all rows are, and the least type that holds them.
CREATE TEMP TABLE offers (doc kohiblad);
INSERT INTO offers VALUES ('{"price": 1.50, "of": ["a", 7]}'), ('{"price": 2, "of": ["bcd", null]}'),
    ('{"price": null}'), ('{"of": []}'), ('[1]'), (NULL);
SELECT kohiblad_survey(doc, '"price"') FROM offers;
SELECT kohiblad_survey(doc, '["of", 0]') FROM offers;
SELECT kohiblad_survey(doc, '["of", -1]') FROM offers;
SELECT kohiblad_survey(doc, '[]') FROM offers;
SELECT kohiblad_survey(doc, '0') FROM offers;
SELECT kohiblad_survey(doc, '"sku"') FROM offers;
SELECT kohiblad_survey(doc, NULL) FROM offers;
SELECT kohiblad_survey(doc, '"price"') FROM offers WHERE false;
SELECT kohiblad_survey(doc, '"price"') ->> 'type', kohiblad_survey(doc, '["of", 0]') ->> 'text'
FROM offers;
-- What each type holds, and what it does not.
SELECT kohiblad_survey(d, '[]') ->> 'type', count(*) FROM (VALUES
    (1, '9223372036854775807'::kohiblad), (1, '-9223372036854775808'), (1, '2.00'), (1, 'null'),
    (2, '9223372036854775808'), (2, '0'), (2, '18446744073709551615.0'),
    (3, '-1'), (3, '18446744073709551615'), (4, '18446744073709551616'),
    (5, '0.5'), (5, '12345678901234567890123456789012345678'),
    (6, '0.5'), (6, '1234567890123456789012345678901234567'),
    (7, 'true'), (7, 'false'), (8, '"a"'), (8, '""'), (9, 'true'), (9, '1'), (10, '"1"'), (10, '1'),
    (11, '[]'), (12, '{}'), (13, 'null'),
    (14, '\x20000000600000051000000001'), (14, 'null')) v(which, d) GROUP BY which ORDER BY which;
-- A path is that of each row, and what is none is refused.
SELECT kohiblad_survey('["a", 1]', to_kohiblad(i % 2)) FROM generate_series(0, 6) i;
SELECT refusal(format('SELECT kohiblad_survey(doc, %L) FROM offers', path))
FROM (VALUES ('{}'), ('true'), ('null'), ('[true]'), ('[[]]'), ('1.5')) v(path);
-- Many rows: each batch, in groups, by workers, and in a window.
CREATE TABLE measured AS SELECT i, format('{"n":%s,"t":%s}', i,
    CASE i % 4 WHEN 0 THEN 'null' WHEN 1 THEN format('"%s"', i) WHEN 2 THEN '-0.25' ELSE '[]' END)
    ::kohiblad AS d FROM generate_series(1, 20000) i;
SELECT kohiblad_survey(d, '"n"'), kohiblad_survey(d, '"t"') FROM measured;
SELECT i % 4, kohiblad_survey(d, '"t"') FROM measured GROUP BY 1 ORDER BY 1;
SELECT string_agg(rows, ' ' ORDER BY i) FROM (SELECT i, kohiblad_survey(d, '"n"')
    OVER (ORDER BY i ROWS UNBOUNDED PRECEDING) ->> 'rows' AS rows FROM measured WHERE i < 9) s;
SET parallel_setup_cost = 0;
SET parallel_tuple_cost = 0;
SET min_parallel_table_scan_size = 0;
SELECT plan_has($$ SELECT kohiblad_survey(d, '"t"') FROM measured $$, 'Partial Aggregate');
SELECT kohiblad_survey(d, '"n"'), kohiblad_survey(d, '"t"') FROM measured;
RESET ALL;
-- Rows that are longer than a batch.
SELECT kohiblad_survey(format('[%s, "%s"]', i, repeat('x', 1048576 * (i % 2)))::kohiblad, '1')
FROM generate_series(1, 5) i;
DROP TABLE measured;
