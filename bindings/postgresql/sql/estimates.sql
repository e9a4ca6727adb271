\set ECHO none \a \t
-- What the planner takes conditions to find, beside the rows that they find: within three times,
-- where less than ten rows count as ten. ANALYZE reads all rows, so it always finds the same.
SELECT setseed(0.7) IS NOT NULL;
CREATE TABLE measured (doc kohiblad, city kohiblad GENERATED ALWAYS AS (doc -> 'city') STORED);
INSERT INTO measured
    SELECT format('{"id":%s,"name":"customer %s","city":"city %s","price":%s.%s,"tags":["new",'
                  '"t%s"],"at":"2026-%s-%sT%s:00","size":{"w":%s,"h":%s}%s}', i, i * 7919 % 100003,
                  floor(60 * random() ^ 2), floor(900 * random() ^ 3), 10 + i % 90, i % 37,
                  lpad((1 + i % 12)::text, 2, '0'), lpad((1 + i % 28)::text, 2, '0'),
                  lpad((i % 24)::text, 2, '0'), i % 50, i % 7,
                  CASE WHEN i % 61 = 0 THEN ',"rare":null' END)::kohiblad
    FROM generate_series(1, 30000) i ORDER BY random();
CREATE INDEX ON measured ((doc -> 'id'));
CREATE STATISTICS of_name ON (doc -> 'name') FROM measured;
CREATE STATISTICS of_price ON (doc -> 'price') FROM measured;
CREATE STATISTICS of_at ON (doc -> 'at') FROM measured;
CREATE STATISTICS of_tags ON (doc -> 'tags') FROM measured;
CREATE STATISTICS of_width ON (doc #> '{size,w}') FROM measured;
CREATE TABLE spans AS
    SELECT i::text::kohiblad AS lo, (i + 900)::text::kohiblad AS hi
    FROM generate_series(1, 29000, 1500) i;
ANALYZE measured, spans;
CREATE FUNCTION planned(command text) RETURNS numeric LANGUAGE plpgsql AS $$
DECLARE
    plan jsonb;
BEGIN
    EXECUTE 'EXPLAIN (FORMAT JSON) ' || command INTO plan;
    RETURN plan #>> '{0,Plan,Plan Rows}';
END $$;
CREATE FUNCTION found(command text) RETURNS numeric LANGUAGE plpgsql AS $$
DECLARE
    rows numeric;
BEGIN
    EXECUTE format('SELECT count(*) FROM (%s) s', command) INTO rows;
    RETURN rows;
END $$;
-- A number between two, of any size alike.
CREATE FUNCTION drawn(low int, high int) RETURNS int LANGUAGE sql VOLATILE AS $$
    SELECT exp(ln(low) + random() * (ln(high) - ln(low)))::int
$$;
CREATE TABLE estimated (kind text, command text, planned numeric, found numeric);
CREATE FUNCTION ask(kind text, condition text, source text DEFAULT 'measured') RETURNS int
LANGUAGE sql AS $$
    INSERT INTO estimated (kind, command)
    VALUES (kind, format('SELECT FROM %s WHERE %s', source, condition)) RETURNING 1
$$;
SELECT count(ask('range of numbers', format('doc -> %L BETWEEN %L AND %L', 'id', low, low + width)))
FROM (SELECT drawn(1, 29000) AS low, drawn(3, 3000) AS width FROM generate_series(1, 14)) s;
SELECT count(ask('range of decimals', format('doc -> %L >= %L AND doc -> %L < %L', 'price', low,
                                             'price', low + width)))
FROM (SELECT drawn(1, 700) AS low, drawn(1, 100) AS width FROM generate_series(1, 10)) s;
SELECT count(ask('one end', format('doc -> %L %s %L', 'id', operator, drawn(1, 29990))))
FROM unnest('{<,<=,>,>=}'::text[]) operator, generate_series(1, 3);
SELECT count(ask('the other way round', format('%L %s doc -> %L', drawn(1, 29990), operator, 'id')))
FROM unnest('{<,<=,>,>=}'::text[]) operator;
SELECT count(ask('range of texts', format('doc -> %L BETWEEN %L AND %L', 'name',
    '"customer ' || low || '"', '"customer ' || low + width || '"')))
FROM (SELECT 10000 + drawn(1, 80000) AS low, drawn(50, 9000) AS width
      FROM generate_series(1, 10)) s;
SELECT count(ask('range of times', format('doc -> %L >= %L AND doc -> %L < %L', 'at', low, 'at',
                                          high)))
FROM (VALUES ('"2026-02-01"', '"2026-03-01"'), ('"2026-05-10"', '"2026-05-20"'),
             ('"2026-11-02T05"', '"2026-11-02T20"'), ('"2026"', '"2026-02"'),
             ('"2026-06-10T12:00"', '"2026-07-12T00:00"')) v(low, high);
SELECT count(ask('range of a column', format('city BETWEEN %L AND %L', '"city ' || low || '"',
                                             '"city ' || high || '"')))
FROM (VALUES (1, 2), (10, 11), (20, 35), (3, 40), (5, 59)) v(low, high);
SELECT count(ask('range of whole documents', format('doc BETWEEN %L AND %L',
    '{"city":"city ' || low || '"}', '{"city":"city ' || high || '"}')))
FROM (VALUES (1, 2), (10, 12), (20, 35), (3, 40)) v(low, high);
SELECT count(ask('ranges joined by OR', format('doc -> %L BETWEEN %L AND %L OR doc -> %L > %L '
    'AND doc -> %L < %L', 'id', low, low + width, 'id', 2 * low, 'id', 2 * low + width)))
FROM (SELECT drawn(1000, 9000) AS low, drawn(20, 900) AS width FROM generate_series(1, 5)) s;
SELECT count(ask('a range that is stricter', format('doc -> %L > %L AND doc -> %L > %L AND '
    'doc -> %L < %L', 'id', low / 2, 'id', low, 'id', low + width)))
FROM (SELECT drawn(1000, 9000) AS low, drawn(20, 900) AS width FROM generate_series(1, 4)) s;
SELECT count(ask('kinds', condition))
FROM unnest('{"doc -> ''id'' < ''null''","doc -> ''id'' >= ''\"\"''",
              "doc >= ''{}'' AND doc < ''[]''",
              "doc -> ''name'' > ''true'' AND doc -> ''name'' < ''{}''"}'::text[]) condition;
SELECT count(ask('a join by a range', condition, 'measured, spans'))
FROM unnest('{"doc -> ''id'' BETWEEN lo AND hi","doc -> ''id'' < lo","hi >= doc -> ''id''",
              "doc #> ''{size,w}'' > lo"}'::text[]) condition;
SELECT count(ask('what contains', format('doc @> %L', part)))
FROM unnest('{"{\"city\":\"city 7\"}","{\"city\":\"city 55\"}","{\"city\":\"nowhere\"}",
              "{\"tags\":[\"t3\"]}","{\"tags\":[\"t3\",\"new\"]}","{\"size\":{\"w\":9}}",
              "{\"size\":{\"w\":9,\"h\":4}}","{\"id\":777}",
              "{\"city\":\"city 1\",\"tags\":[\"t5\"]}","{\"rare\":null}","{}"}'::text[]) part;
SELECT count(ask('a member that contains', format('doc -> %L @> %L', 'tags', part)))
FROM unnest('{"[\"t3\"]","[\"new\"]","[\"t3\",\"t4\"]","\"t9\""}'::text[]) part;
SELECT count(ask('keys', condition))
FROM unnest('{"doc ? ''city''","doc ? ''rare''","doc ? ''none''","doc ?| ''{rare,none}''",
              "doc ?& ''{rare,city}''","doc -> ''tags'' ? ''t3''","doc -> ''tags'' ?| ''{t3,t4}''",
              "NOT doc ? ''rare''"}'::text[]) condition;
SELECT count(ask('paths', condition))
FROM unnest('{"doc @? ''$.city ? (@ == \"city 7\")''","doc @@ ''$.city == \"city 55\"''",
              "doc @? ''$.tags[*] ? (@ == \"t3\")''","doc @@ ''$.size.w == 9 && $.size.h == 4''",
              "doc @@ ''$.price > 100''","doc @@ ''$.size.w < 10''","doc @? ''$.city''",
              "doc @@ ''$.tags[*] == \"new\" && $.size.w == 9''"}'::text[]) condition;
SELECT count(ask('other conditions beside', condition))
FROM unnest('{"doc -> ''id'' BETWEEN ''100'' AND ''5000'' AND doc @> ''{\"city\": \"city 7\"}''",
              "doc -> ''id'' < ''300'' AND city > ''\"city 3\"''",
              "city IN (''\"city 3\"'', ''\"city 7\"'') AND doc -> ''id'' >= ''20000''"}'::text[])
    condition;
UPDATE estimated SET planned = planned(command), found = found(command);
SELECT count(*) >= 100 FROM estimated;
CREATE VIEW missed AS
    SELECT * FROM estimated
    WHERE greatest(planned, 10) / greatest(found, 10) NOT BETWEEN 0.333 AND 3;
SELECT kind, count(*) FROM missed GROUP BY 1 ORDER BY 1;
SELECT command, planned, found FROM missed ORDER BY 1 LIMIT 20;
-- A range of which nothing is known has the same estimate as one of whole numbers.
CREATE TABLE unknown AS SELECT doc -> 'id' AS id, (doc -> 'id')::int AS number FROM measured;
ALTER TABLE unknown SET (autovacuum_enabled = off);
SELECT planned('SELECT FROM unknown WHERE id BETWEEN ''5'' AND ''9''') =
       planned('SELECT FROM unknown WHERE number BETWEEN 5 AND 9'),
       planned('SELECT FROM unknown WHERE id > ''5''') =
       planned('SELECT FROM unknown WHERE number > 5');
PREPARE between_two(kohiblad, kohiblad) AS SELECT FROM measured WHERE doc -> 'id' BETWEEN $1 AND $2;
SET plan_cache_mode = force_generic_plan;
SELECT planned('EXECUTE between_two(''100'', ''200'')') BETWEEN 100 AND 200;
RESET plan_cache_mode;
SELECT planned('EXECUTE between_two(''100'', ''300'')') BETWEEN 150 AND 250;
DEALLOCATE between_two;
SELECT planned('SELECT FROM measured WHERE doc -> ''id'' > NULL');
-- A user who may not read the table learns nothing from its statistics.
CREATE ROLE curious;
CREATE VIEW shown WITH (security_barrier) AS SELECT doc FROM measured WHERE doc -> 'id' < '10';
DROP VIEW shown;
DROP ROLE curious;
-- Damaged statistics, or of many keys, cannot be made: documents past 64 KB are passed over.
CREATE TABLE wide_rows AS
    SELECT ('[' || repeat('"a long text",', 10000) || i || ']')::kohiblad AS doc
    FROM generate_series(1, 20) i;
ANALYZE wide_rows;
SELECT most_common_elems IS NULL FROM pg_stats WHERE tablename = 'wide_rows';
