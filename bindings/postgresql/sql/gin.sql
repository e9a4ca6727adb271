\set ECHO none \a \t
-- GIN indexes: what they find is what a scan of the table finds. The functions for random documents
-- are those of random.sql.
CREATE TABLE found AS SELECT i, random_text(3)::kohiblad AS d FROM generate_series(1, 4000) i;
INSERT INTO found VALUES (0, NULL), (-1, '\x20000000600000051000000001'),
    (-2, '[1,"2026"]'::kohiblad || '\x20000000600000051000000001'::kohiblad),
    (-3, ('["' || repeat('long ', 100000) || '"]')::kohiblad),
    (-4, kohiblad_build_object('a', '\x20000000600000051000000001'::kohiblad)),
    (-5, kohiblad_build_array('\x20000000600000051000000001'::kohiblad));
CREATE INDEX found_d ON found USING gin (d);
CREATE INDEX found_path ON found USING gin ((d -> 'a') kohiblad_path_ops);
ANALYZE found;
-- What is searched for: documents, parts of documents, and parts of each kind.
CREATE TABLE searched AS
    SELECT d AS part FROM found WHERE i BETWEEN -2 AND 100
    UNION ALL SELECT it FROM found, kohiblad_path_query(d, '$.*') it WHERE i BETWEEN 1 AND 60
    UNION ALL SELECT kohiblad_build_object(key, value) FROM found, kohiblad_each(d)
              WHERE i BETWEEN 200 AND 260 AND key IS NOT NULL
    UNION ALL SELECT kohiblad_build_array(value) FROM found, kohiblad_each(d)
              WHERE i BETWEEN 400 AND 450
    UNION ALL SELECT it::kohiblad
        FROM unnest('{"{}","[]","{\"a\":{}}","{\"a\":[]}","[[]]",null,"\"a\""}'::text[]) it;
CREATE FUNCTION rows_by_index(condition text) RETURNS text LANGUAGE plpgsql
SET enable_seqscan = off SET jit = off AS $$
DECLARE
    result text;
BEGIN
    EXECUTE 'SELECT array_agg(i ORDER BY i)::text FROM found WHERE ' || condition INTO result;
    RETURN result;
END $$;
CREATE FUNCTION rows_by_scan(condition text) RETURNS text LANGUAGE plpgsql
SET enable_bitmapscan = off SET jit = off AS $$
DECLARE
    result text;
BEGIN
    EXECUTE 'SELECT array_agg(i ORDER BY i)::text FROM found WHERE ' || condition INTO result;
    RETURN result;
END $$;
-- A random predicate of SQL/JSON over $ or @, and a path with such a filter.
CREATE FUNCTION random_predicate(start text, depth int) RETURNS text LANGUAGE plpgsql VOLATILE AS $$
DECLARE
    steps text := start || one_of('{.a,.b,.a.b,.a[*],[0],[*],.\"é\",.*,.\"0\","",.a[0].b,.**}');
    scalar text := one_of('{1,1.0,2,null,true,\"a\",\"\",\"1\",-3,1.5,1e200}');
BEGIN
    RETURN CASE floor(random() * CASE WHEN depth = 0 THEN 3 ELSE 9 END)::int
        WHEN 0 THEN steps || ' == ' || scalar
        WHEN 1 THEN scalar || ' == ' || steps
        WHEN 2 THEN steps || one_of('{.type() == \"number\",.size() == 1," > 1"," != 1"}')
        WHEN 3 THEN random_predicate(start, 0) || ' && ' || random_predicate(start, 0)
        WHEN 4 THEN random_predicate(start, 0) || ' || ' || random_predicate(start, 0)
        WHEN 5 THEN '!(' || random_predicate(start, 0) || ')'
        WHEN 6 THEN 'exists(' || steps || ')'
        WHEN 7 THEN 'exists(' || steps || ' ? (' || random_predicate('@', depth - 1) || '))'
        ELSE 'exists(' || steps || ' ? (' || random_predicate('@', depth - 1) || ').a)'
    END;
END $$;
CREATE FUNCTION random_jsonpath() RETURNS text LANGUAGE sql VOLATILE AS $$
    SELECT one_of('{lax,strict}') || ' $' || one_of('{.a,.b,[*],.*,"",.a[0]}')
        || ' ? (' || random_predicate('@', 2) || ')' || one_of('{"",.a,[*],.**}')
$$;
CREATE TABLE conditions AS
    SELECT 1 AS number, format('d @> %L', part) AS condition FROM searched
    UNION ALL SELECT 2, format('d -> ''a'' @> %L', part) FROM searched
    UNION ALL SELECT 3, format('d ? %L', it) FROM unnest('{a,b,0,-1,"",é,x,c,1}'::text[]) it
    UNION ALL SELECT 4, format('d ?| %L', random_path()) FROM generate_series(1, 60)
    UNION ALL SELECT 5, format('d ?& %L', random_path()) FROM generate_series(1, 60)
    UNION ALL SELECT 7, format('d @@ %L', random_predicate('$', 2)) FROM generate_series(1, 150)
    UNION ALL SELECT 8, format('d @? %L', random_jsonpath()) FROM generate_series(1, 150)
    UNION ALL SELECT 9, format('d -> ''a'' @@ %L', random_predicate('$', 1))
              FROM generate_series(1, 60)
    UNION ALL SELECT 6, format('d ? %L AND d @> %L', one_of('{a,b,c,0,é}'), part) FROM searched;
SET jit = off;
SET enable_seqscan = off;
SELECT plan_has('SELECT FROM found WHERE d @> ''{"a":1}''', 'Bitmap Index Scan on found_d'),
    plan_has('SELECT FROM found WHERE ''{"a":1}'' <@ d', 'Bitmap Index Scan on found_d'),
    plan_has('SELECT FROM found WHERE d -> ''a'' @> ''1''', 'Bitmap Index Scan on found_path');
SELECT plan_has('SELECT FROM found WHERE d ? ''a''', 'Bitmap Index Scan on found_d'),
    plan_has('SELECT FROM found WHERE d ?| ''{a,b}''', 'Bitmap Index Scan on found_d'),
    plan_has('SELECT FROM found WHERE d ?& ''{a,b}''', 'Bitmap Index Scan on found_d');
SELECT plan_has('SELECT FROM found WHERE d @@ ''$.a == 1''', 'Bitmap Index Scan on found_d'),
    plan_has('SELECT FROM found WHERE d @? ''$ ? (@.a == 1)''', 'Bitmap Index Scan on found_d'),
    plan_has('SELECT FROM found WHERE d -> ''a'' @@ ''$ == 1''', 'Bitmap Index Scan on found_path');
SET enable_seqscan = on;
SET enable_bitmapscan = off;
SELECT plan_has('SELECT FROM found WHERE d @> ''{"a":1}''', 'Seq Scan on found');
RESET enable_bitmapscan;
SELECT number, count(*) = count(*) FILTER (WHERE by_index IS NOT DISTINCT FROM by_scan),
    count(by_scan) > 5
FROM (SELECT number, rows_by_index(condition) AS by_index, rows_by_scan(condition) AS by_scan
      FROM conditions) answers
GROUP BY number ORDER BY number;
-- Rows that come later, at first in the list of pending ones.
INSERT INTO found SELECT i, random_text(3)::kohiblad FROM generate_series(4001, 4500) i;
SELECT count(*) = count(*) FILTER (WHERE rows_by_index(condition)
                                       IS NOT DISTINCT FROM rows_by_scan(condition))
FROM conditions WHERE number IN (1, 3);
-- Names are keys apart: what a name is at another place is not looked at again.
CREATE TABLE named AS
    SELECT CASE i % 4 WHEN 0 THEN '{"x":{"name":1}}' WHEN 1 THEN '{"x":"name"}'
                      WHEN 2 THEN '[["name"]]' ELSE '{"name":1}' END::kohiblad AS d
    FROM generate_series(1, 400) i;
CREATE INDEX ON named USING gin (d);
SET enable_seqscan = off;
CREATE FUNCTION rechecked(command text) RETURNS text LANGUAGE plpgsql AS $$
DECLARE
    line text;
BEGIN
    FOR line IN EXECUTE 'EXPLAIN (ANALYZE, COSTS OFF, TIMING OFF, SUMMARY OFF) ' || command LOOP
        IF line ~ 'Removed by Index Recheck' THEN
            RETURN trim(line);
        END IF;
    END LOOP;
    RETURN 'none removed';
END $$;
SELECT count(*) FROM named WHERE d ? 'name';
SELECT rechecked($$ SELECT FROM named WHERE d ? 'name' $$),
    rechecked($$ SELECT FROM named WHERE d @> '{"x":"name"}' $$);
SELECT rechecked($$ SELECT FROM named WHERE d @> '{"x":[]}' $$);
-- What a path must find is searched for by its keys; a date is a text to the server's engine alone.
SELECT rechecked($$ SELECT FROM named WHERE d @@ '$.x.name == 1 && exists($.x)' $$),
    rechecked($$ SELECT FROM named WHERE d @? '$.x ? (@ == "name")' $$);
SELECT rechecked($$ SELECT FROM named WHERE d @@ 'exists($.x)' $$);
SELECT array_agg(i ORDER BY i) FROM found WHERE d @@ '$.a == "1"' AND i < 0;
SELECT array_agg(i ORDER BY i) FROM found WHERE d @@ '$.a == "1" && 1/1 == 1' AND i < 0;
SELECT array_agg(i ORDER BY i) FROM found WHERE d @? '$[0] ? (@ == "1" && 1/1 == 1)' AND i < 0;
RESET enable_seqscan;
-- A document that jsonb cannot hold: a path that the server's engine follows finds nothing in it,
-- with an index and without, where nothing is said of errors.
CREATE TABLE unheld AS SELECT CASE i WHEN 7 THEN '{"a":1,"b":"\\\u0000"}'
    WHEN 8 THEN '{"a":1,"\u0000":2}' ELSE '{"a":1,"b":"\\u0000\u0001"}' END::kohiblad AS d
FROM generate_series(1, 20) i;
CREATE INDEX unheld_d ON unheld USING gin (d);
CREATE FUNCTION found_unheld(condition text) RETURNS text LANGUAGE plpgsql AS $$
DECLARE
    by_index text;
    by_scan text;
BEGIN
    SET LOCAL enable_seqscan = off;
    SET LOCAL enable_bitmapscan = on;
    EXECUTE 'SELECT count(*) FROM unheld WHERE ' || condition INTO by_index;
    IF NOT plan_has('SELECT FROM unheld WHERE ' || condition, 'Index Scan') THEN
        RETURN 'no index';
    END IF;
    SET LOCAL enable_seqscan = on;
    SET LOCAL enable_bitmapscan = off;
    EXECUTE 'SELECT count(*) FROM unheld WHERE ' || condition INTO by_scan;
    RETURN by_index || ' ' || by_scan;
END $$;
SELECT found_unheld($$ d @? '$.a ? (1/1 == 1)' $$),
    found_unheld($$ d @@ '$.a == 1 && 1/1 == 1' $$),
    found_unheld($$ d @? '$.a ? (@ == 1 && 1/1 == 1)' $$), found_unheld($$ d @> '{"a":1}' $$);
SELECT count(*) FILTER (WHERE d @? '$ ? (1/1 == 1)'),
    count(*) FILTER (WHERE d @? '$ ? (1/1 == 1)' IS NULL),
    count(*) FILTER (WHERE kohiblad_path_exists(d, '$ ? (1/1 == 1)', silent => true)),
    count(*) FILTER (WHERE kohiblad_path_exists_tz(d, '$ ? (1/1 == 1)', silent => true)),
    count(*) FILTER (WHERE kohiblad_path_match(d, '$.a == 1/1', silent => true)),
    count(kohiblad_path_query_first(d, '$.a ? (1/1 == 1)', silent => true)),
    sum(kohiblad_array_length(kohiblad_path_query_array(d, '$.a ? (1/1 == 1)', silent => true)))
FROM unheld;
SELECT count(*), sum(it::int)
FROM unheld, kohiblad_path_query(d, '$.a ? (1/1 == 1)', silent => true) it;
SELECT count(*) FROM (SELECT kohiblad_path_query(d, 'strict $.*', silent => true) FROM unheld) s;
SELECT refusal($$ SELECT count(*) FROM unheld WHERE kohiblad_path_exists(d, '1/1') $$);
SELECT refusal($$ SELECT kohiblad_path_exists('[]', '1/1', '{"x":"\u0000"}', true) $$);
-- Other paths are followed in the document itself, by the library too.
SELECT found_unheld($$ d @? 'strict $.a' $$), found_unheld($$ d @@ 'strict $.a == 1' $$);
SELECT found_unheld($$ d @? '$.a' $$), found_unheld($$ d @@ '$.a == 1' $$),
    found_unheld($$ d @? '$.a ? (@ == 1)' $$), found_unheld($$ d @> '{"a":1}' $$);
SELECT count(*) FILTER (WHERE d @? '$'), count(*) FILTER (WHERE d @? '$' IS NULL),
    count(*) FILTER (WHERE kohiblad_path_exists(d, '$', silent => true)),
    count(*) FILTER (WHERE kohiblad_path_exists_tz(d, '$', silent => true)),
    count(*) FILTER (WHERE kohiblad_path_match(d, '$.a == 1', silent => true)),
    count(kohiblad_path_query_first(d, '$.a', silent => true)),
    sum(kohiblad_array_length(kohiblad_path_query_array(d, '$.a', silent => true))) FROM unheld;
SELECT count(*), sum(it::int) FROM unheld, kohiblad_path_query(d, '$.a', silent => true) it;
SELECT count(*) FROM (SELECT kohiblad_path_query(d, '$.*', silent => true) FROM unheld) s;
SELECT refusal($$ SELECT count(*) FROM unheld WHERE kohiblad_path_exists(d, '$') $$);
-- Paths of more steps than documents have levels.
SELECT found_unheld(format('d @@ %L', '$' || repeat('.a', steps) || ' == 1')),
    found_unheld(format('d @? %L', '$' || repeat('.a', steps) || ' ? (@ == 1)'))
FROM unnest('{1,2,999,1000,1001,1500}'::int[]) steps;
INSERT INTO unheld SELECT (repeat('{"a":', 1000) || '1' || repeat('}', 1000))::kohiblad;
SELECT found_unheld(format('d @@ %L', '$' || repeat('.a', steps) || ' == 1'))
FROM unnest('{999,1000,1001}'::int[]) steps;
