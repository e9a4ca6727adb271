\set ECHO none \a \t
-- min and max, by the order of docs/FORMAT.md: a date is least there, and null greatest.
SELECT min(d), max(d), min(d) FILTER (WHERE place > 17), max(d) FILTER (WHERE place < 12)
FROM ranked;
SELECT min(d) IS NULL, max(d) IS NULL FROM ranked WHERE false;
SELECT min(d), max(d) FROM (VALUES (NULL::kohiblad), ('2'), (NULL), ('1.5')) v(d);
SELECT kohiblad_kind(min(d)), kohiblad_kind(max(d)) FROM wide;
SELECT bool_and(lowest = first AND highest = last)
FROM (SELECT i % 100 AS town, min(d -> 'id') AS lowest, max(d -> 'id') AS highest,
             min(i)::text::kohiblad AS first, max(i)::text::kohiblad AS last
      FROM rows_of GROUP BY i % 100) s;
SELECT string_agg(low::text, ' ' ORDER BY i)
FROM (SELECT i, min(d -> 'id') OVER (ORDER BY i DESC ROWS 2 PRECEDING) AS low FROM rows_of) s
WHERE i > 19995;
-- An index has both at its ends.
SELECT plan_has($$ SELECT min(d) FROM rows_of $$, 'using by_doc'),
    plan_has($$ SELECT max(d) FROM rows_of $$, 'Backward using by_doc'),
    plan_has($$ SELECT max(d -> 'id') FROM rows_of $$, 'using by_id');
SELECT min(d), max(d -> 'id') FROM rows_of;
-- Parallel workers.
SET parallel_setup_cost = 0;
SET parallel_tuple_cost = 0;
SET min_parallel_table_scan_size = 0;
SET enable_indexscan = off;
SET enable_indexonlyscan = off;
SELECT plan_has($$ SELECT min(d) FROM rows_of $$, 'Partial Aggregate');
SELECT min(d), max(d -> 'id') FROM rows_of;
RESET ALL;
-- BRIN: documents in their order, some of them out of line.
CREATE TABLE ranges (i int, d kohiblad) WITH (fillfactor = 10);
INSERT INTO ranges SELECT i, i::text::kohiblad FROM generate_series(1, 1000) i;
CREATE INDEX by_range ON ranges USING brin (d) WITH (pages_per_range = 1);
INSERT INTO ranges SELECT 1000 + i, format('{"id":%s}', i)::kohiblad FROM generate_series(1, 500) i;
INSERT INTO ranges
    SELECT 1500 + i, (SELECT kohiblad_agg(format('"%s"', md5(format('%s %s', i, j)))::kohiblad)
                      FROM generate_series(1, 100) j) FROM generate_series(1, 20) i;
INSERT INTO ranges VALUES (0, '\x20000000600000051000000001'), (1521, 'null'), (1522, NULL);
SELECT brin_summarize_new_values('by_range') > 0;
SELECT count(*) = 20, min(pg_column_size(d)) > 3000, pg_relation_size(reltoastrelid) > 60000
FROM ranges, pg_class
WHERE kohiblad_kind(d) = 'array' AND relname = 'ranges' GROUP BY reltoastrelid;
-- The rows of a condition, by the index and without it.
CREATE FUNCTION rows_by(scan text, condition text) RETURNS text LANGUAGE plpgsql AS $$
DECLARE
    places text;
BEGIN
    PERFORM set_config('enable_seqscan', (scan = 'table')::text, true);
    PERFORM set_config('enable_bitmapscan', (scan = 'index')::text, true);
    EXECUTE 'SELECT string_agg(i::text, '' '' ORDER BY i) FROM ranges WHERE ' || condition
        INTO places;
    RETURN places;
END $$;
SET enable_seqscan = off;
SELECT plan_has($$ SELECT * FROM ranges WHERE d < '7' $$, 'Bitmap Index Scan on by_range');
RESET ALL;
SELECT count(*), count(*) FILTER (WHERE rows_by('index', condition) = rows_by('table', condition))
FROM (SELECT format('d %s (SELECT d FROM ranges WHERE i = %s)', operator, i) AS condition
      FROM unnest('{<,<=,=,>=,>}'::text[]) operator,
           unnest('{0,1,500,1000,1001,1300,1501,1510,1521}'::int[]) i) s
WHERE rows_by('table', condition) IS NOT NULL;
SELECT rows_by('index', $$ d = '500.0' $$), rows_by('index', $$ d <= '1' $$),
    rows_by('index', $$ d > (SELECT d FROM ranges WHERE i = 1520) AND kohiblad_kind(d) = 'null' $$);
-- The pages that are read.
CREATE FUNCTION pages_read(condition text) RETURNS int LANGUAGE plpgsql AS $$
DECLARE
    plan json;
BEGIN
    PERFORM set_config('enable_seqscan', 'false', true);
    EXECUTE 'EXPLAIN (ANALYZE, FORMAT json) SELECT * FROM ranges WHERE ' || condition INTO plan;
    RETURN plan #>> '{0,Plan,Lossy Heap Blocks}';
END $$;
SELECT pages_read($$ d = '500' $$) < 5, pages_read($$ d >= '0' $$) > 50;
-- An index row has the least and the greatest document of its pages, in 8,152 bytes.
CREATE TABLE too_wide AS SELECT d FROM wide;
SELECT refusal('CREATE INDEX ON too_wide USING brin (d)') LIKE '54000 index row size % 8152 %';
DROP TABLE too_wide;
