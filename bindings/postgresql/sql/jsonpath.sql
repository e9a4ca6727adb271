\set ECHO none \a \t
-- Paths of SQL/JSON, which are followed in documents or in a jsonb of them: 200 random ones find in
-- 2,000 random documents what they find in their jsonb. Members come in the order of their names,
-- those of jsonb by lengths first, so that no name here is longer than one that comes after it.
SELECT setseed(0.67) IS NOT NULL;
CREATE FUNCTION random_filter(depth int) RETURNS text LANGUAGE sql VOLATILE AS $$ SELECT '' $$;
-- Steps after $ or @; few of them are of kinds that are not followed in documents.
CREATE FUNCTION random_steps(depth int) RETURNS text LANGUAGE plpgsql VOLATILE AS $$
DECLARE
    steps text := '';
BEGIN
    FOR i IN 1 .. floor(random() * 4)::int LOOP
        steps := steps || CASE WHEN random() < 0.2 AND depth > 0 THEN random_filter(depth - 1)
            WHEN random() < 0.02 THEN one_of('{.**,.size(),.type(),[last / 2],.keyvalue().key}')
            ELSE one_of(string_to_array('.a;.b;.c;.d;."0";."1";[0,1];.é;.*;.*;[*];[*];[0];[1];'
                || '[-1];[last];[last - 1];[0 to 1];[last - 1 to last];[1,last,0 to 1];[5 to last]',
                ';'))
            END;
    END LOOP;
    RETURN steps || CASE WHEN random() < 0.15 THEN one_of('{.size(),.type()}') ELSE '' END;
END $$;
-- A value at a place of a document, `$` or `@`, or a literal.
CREATE FUNCTION random_operand(depth int, here text) RETURNS text LANGUAGE sql VOLATILE AS $$
    SELECT CASE WHEN random() < 0.65
        THEN CASE WHEN random() < 0.2 THEN '$' ELSE here END || random_steps(depth)
        ELSE one_of(string_to_array(
            'null;true;false;0;1;1.0;1.50;-3;12345678901234567891;1e3;"a";"b";"";"0";"é"', ';')) END
$$;
CREATE FUNCTION random_test(depth int, here text) RETURNS text LANGUAGE plpgsql VOLATILE AS $$
BEGIN
    RETURN CASE WHEN depth > 0 AND random() < 0.5 THEN
        CASE floor(random() * 5)::int
            WHEN 0 THEN '!(' || random_test(depth - 1, here) || ')'
            WHEN 1 THEN '(' || random_test(depth - 1, here) || ') is unknown'
            ELSE '(' || random_test(depth - 1, here) || ')' || one_of('{&&,||}')
                || '(' || random_test(depth - 1, here) || ')' END
        WHEN random() < 0.25 THEN 'exists(' || random_operand(depth, here) || ')'
        WHEN random() < 0.15 THEN random_operand(depth, here) || one_of(string_to_array(
            ' starts with "a"; starts with ""; like_regex "^[ab]"; like_regex "^B" flag "i"', ';'))
        ELSE random_operand(depth, here) || one_of('{==,==,!=,<>,<,<=,>,>=}')
            || random_operand(depth, here) END;
END $$;
CREATE OR REPLACE FUNCTION random_filter(depth int) RETURNS text LANGUAGE sql VOLATILE AS $$
    SELECT ' ? (' || random_test(depth, '@') || ')'
$$;
CREATE TABLE paths AS SELECT i, (CASE WHEN random() < 0.05 THEN 'strict ' ELSE '' END
        || CASE WHEN random() < 0.5 THEN '$' || random_steps(2) ELSE random_test(2, '$') END)
        ::jsonpath AS path
    FROM generate_series(1, 200) i;
CREATE TABLE walked AS SELECT i, shown::kohiblad AS d, shown::jsonb AS j
    FROM (SELECT i, replace(random_text(3), '"-1":', '"_":') AS shown
          FROM generate_series(1, 2000) i) s;
-- In a document that jsonb cannot hold, those that are followed in documents have an answer.
SELECT count(*), count(kohiblad_path_exists('["\u0000"]', path, silent => true)) > 150 FROM paths;
SELECT count(*), count(*) FILTER (WHERE d @? path IS NOT DISTINCT FROM j @? path) AS finds,
    count(*) FILTER (WHERE d @@ path IS NOT DISTINCT FROM j @@ path) AS says,
    count(*) FILTER (WHERE (p.i + w.i) % 4 = 0
        AND kohiblad_path_query_array(d, path, silent => true)::jsonb::text
            IS NOT DISTINCT FROM jsonb_path_query_array(j, path, silent => true)::text) AS gathers,
    count(*) FILTER (WHERE j @? path) > 100000 AND count(*) FILTER (WHERE j @@ path) > 20000
        AND count(*) FILTER (WHERE NOT j @@ path) > 20000 AS has_all
FROM paths p, walked w;
-- Their rows, their first values and their errors, with another path in each row.
SELECT count(*), count(*) FILTER (WHERE array_to_string(ARRAY(
        SELECT kohiblad_path_query(d, path, silent => true)::jsonb::text), ' ', 'NULL') =
        array_to_string(ARRAY(SELECT jsonb_path_query(j, path, silent => true)), ' ', 'NULL')),
    count(*) FILTER (WHERE kohiblad_path_query_first(d, path, silent => true)::jsonb::text
        IS NOT DISTINCT FROM jsonb_path_query_first(j, path, silent => true)::text)
FROM walked w JOIN paths p ON p.i = 1 + w.i % 200;
CREATE TABLE calls (number int, call text);
INSERT INTO calls VALUES (1, 'TYPE_path_exists'), (2, 'TYPE_path_match'),
    (3, 'TYPE_path_query_array'), (4, 'TYPE_path_exists_tz'), (5, 'TYPE_path_match_tz'),
    (6, 'TYPE_path_query_array_tz'), (7, 'TYPE_path_query_first_tz');
CREATE FUNCTION called(call text, d text, path jsonpath, type text) RETURNS text LANGUAGE sql AS $$
    SELECT answer_of(replace(format('SELECT %s(%L::TYPE, %L)::text::TYPE::text', call, d, path),
                             'TYPE', type))
$$;
SELECT number, count(*), count(*) FILTER (WHERE of_jsonb IS NOT DISTINCT FROM of_kohiblad
        OR same_json(of_jsonb, of_kohiblad))
FROM (SELECT number, called(call, j::text, path, 'jsonb') AS of_jsonb,
             called(call, j::text, path, 'kohiblad') AS of_kohiblad
      FROM calls, walked w JOIN paths p ON p.i = 1 + w.i % 200 WHERE w.i <= 400) s
GROUP BY number ORDER BY number;
-- The rules of lax paths: items of an array in its place, one level deep.
SELECT path, d @? path AS finds, d @@ path AS says,
    kohiblad_path_query_array(d, path, silent => true) AS found
FROM (SELECT '{"a":[{"b":1},{"b":[2,[3]]},[{"b":4}]],"c":null,"bb":"x","d":{}}'::kohiblad AS d) s,
    unnest(string_to_array('$.a.b;$.a[*].b;$.a.b == 2;$.a.b == 3;$.a[last].b;$.a[0 to 9].b[0];'
        || '$.c[0][last];$.d[1];$.*;$.a[-1];$.a[2,last - 2].b;$.c == 1;$.c != 1;$.d != null;'
        || '$.d == $.d;$.bb < 1;!($.bb < 1);($.bb < 1) is unknown;$.e > 1;$.a ? (@.b == 1);'
        || '$.a[*] ? (exists (@[0].b)).b;$.bb starts with "";$.a.b.size();strict $.a.b', ';')
    ::jsonpath[]) path;
-- What a method makes of each kind of value, and texts by a pattern; a date is of its own type.
SELECT path, d @@ path, kohiblad_path_query_array(d, path, silent => true)
FROM (SELECT kohiblad_set('{"a":[1,[2,3],{"b":1}],"c":null,"n":1.5,"s":"AbC","t":true}', '{d}',
                          '\x20000000600000051000000001') AS d) s,
    unnest(string_to_array('$.a.size();$.a[*].size();$.a[1].size();$.n.size();$.*.type();'
        || '$.a.type();$.a.size() == 3;$.a ? (@.size() > 1);$.*.size().type();$.x.size();$.d.type();'
        || '$.s like_regex "^a";$.s like_regex "^a" flag "i";$.a like_regex "x";$.d like_regex "1";'
        || '$.* ? (@ like_regex "b").type();$.s like_regex "^.b" flag "q"', ';')::jsonpath[]) path;
-- A path with variables, and one that is not a constant, go by what is given in each row.
SELECT path, kohiblad_path_query_array('[1,2,3]', path::jsonpath, vars::kohiblad)
FROM (VALUES ('$[*] ? (@ > $x)', '{"x":2}'), ('$[*] ? (@ > 2)', '{"x":2}'), ('$[1]', '{}'),
             ('$[*] ? (@ > 1)', '{}'), ('$[1]', '{"x":2}')) v(path, vars);
SELECT refusal($$ SELECT kohiblad_path_exists('[1]', '$[0]', '[]') $$),
    refusal($$ SELECT kohiblad_path_match('[1,2]', '$[*]') $$),
    refusal($$ SELECT kohiblad_path_match('[1]', '$[0]') $$);
-- A date is found as it is, and compares with nothing but null; the server's engine has a text.
SELECT d @@ '$.d == "1"', d @? '$.d ? (@ == @)', kohiblad_path_query_first(d, '$.d'), d @? '$.d',
    kohiblad_path_query_array(d, '$.*'), d @@ '$.d != null', d @@ '$.d == "1" && 1/1 == 1'
FROM (SELECT kohiblad_set('{"n":5}', '{d}', '\x20000000600000051000000001') AS d) s;
-- Paths with arithmetic, variables and levels: 300 random ones give what the server's functions
-- give, and the same errors. No sign stands at the end, and all variables are given, since the server
-- has answers of its own there.
CREATE TABLE followed AS SELECT i, (one_of('{"lax ","strict "}') || CASE i % 6
    WHEN 0 THEN '$' || random_steps(1) || one_of('{.abs(),.floor(),.ceiling(),.type(),.size()}')
    WHEN 1 THEN format('$%s %s $%s', random_steps(1), one_of('{+,-,*,%}'), random_steps(1))
    WHEN 2 THEN format('$%s ? (@ %s $%s)', random_steps(1), one_of('{==,<,>=}'), one_of('{x,y}'))
    WHEN 3 THEN format('$.** ? (%s)', random_test(1, '@'))
    WHEN 4 THEN format('$%s[$x to last]%s', random_steps(0), one_of('{"",.type(),.abs()}'))
    ELSE format('(%s$%s) ? (@ > 0)', one_of('{+,-}'), random_steps(1)) END)::jsonpath AS path
    FROM generate_series(1, 300) i;
SELECT count(*), count(*) FILTER (WHERE kohiblad_path_exists(d, path, vars::kohiblad, true)
            IS NOT DISTINCT FROM jsonb_path_exists(j, path, vars, true)) AS finds,
    count(*) FILTER (WHERE kohiblad_path_match(d, path, vars::kohiblad, true)
            IS NOT DISTINCT FROM jsonb_path_match(j, path, vars, true)) AS says,
    count(*) FILTER (WHERE kohiblad_path_query_array(d, path, vars::kohiblad, true)::jsonb::text
            IS NOT DISTINCT FROM jsonb_path_query_array(j, path, vars, true)::text) AS gathers
FROM followed p, (SELECT * FROM walked WHERE i <= 300) w,
    (SELECT jsonb '{"x":1.5,"y":"a"}' AS vars) v;
SELECT number, count(*), count(*) FILTER (WHERE of_jsonb IS NOT DISTINCT FROM of_kohiblad
        OR same_json(of_jsonb, of_kohiblad))
FROM (SELECT number, called(call, j::text, path, 'jsonb') AS of_jsonb,
             called(call, j::text, path, 'kohiblad') AS of_kohiblad
      FROM calls, walked w JOIN (
          SELECT i, replace(replace(path::text, '$"x"', '1.5'), '$"y"', '"a"')::jsonpath AS path
          FROM followed) p ON p.i = 1 + w.i % 300
      WHERE w.i <= 600) s
GROUP BY number ORDER BY number;
-- Numbers keep their digits, and arithmetic has those of numeric; strings stay as they are.
SELECT path, kohiblad_path_query_array('{"a":[1.50,2,-0.75],"b":"\u0000\"é","c":{"d":null}}',
                                       path, '{"x":2.0,"y":["u",{"v":[]}]}', true)
FROM unnest(string_to_array('strict $.a[*];strict $.a[0] + $.a[1];$.a[0] * $.a[2];$.a[1] % $x;'
        || '-$.a[*];$.a[*].abs();$.a[*].floor();$.a[2].ceiling();$y;$y[1].v.type();$.a[$x];'
        || 'strict $.b;strict $.c.d;$.a[last].abs() - $x;($.a[0] > $x) is unknown;strict $.a[5];strict $.x;'
        || '$.a[0,1,$x] ? (@ > $x - 1).type();$.a[*] ? (@.abs() < $x)', ';')::jsonpath[]) path;
-- The errors of the standard.
SELECT path, refusal(format('SELECT kohiblad_path_query(%L, %L)', d, path)),
    detail_of(format('SELECT kohiblad_path_query(%L, %L)', d, path)),
    kohiblad_path_query_array(d::kohiblad, path::jsonpath, '{"x":"0"}', true)
FROM (SELECT '{"a":[1,"x"],"b":null}' AS d) s, unnest(string_to_array('strict $.c;strict $.a.b;'
    || 'strict $.b[0];strict $.a[2];$.a["x"];$.a[1].abs();$.a[*] + 1;-$.a;1 % ($.a[0] - 1);$.a[$x];'
    || 'strict $.*.c', ';')) path;
SELECT refusal($$ SELECT kohiblad_path_match('[1,2]', 'strict $[*]') $$),
    detail_of($$ SELECT kohiblad_path_match('[1,2]', 'strict $[*]') $$),
    kohiblad_path_match('[true,2]', 'strict $[0,1,2]', silent => true) IS NULL,
    kohiblad_path_match('[true,2]', 'strict $[0,2]', silent => true);
-- Who follows a path, as a session is told that listens to messages for debugging: what takes long
-- and what is left out of the language are left to the server.
SET client_min_messages = debug1;
SELECT '{"a":1}'::kohiblad @? '$.a';
SELECT '{"a":1}'::kohiblad @? 'strict $.a', '{"a":1}'::kohiblad @? '$.a.abs()';
SELECT kohiblad_path_query('{"a":1}', '$.a + $x', '{"x":2}');
SELECT kohiblad_path_query('{"a":1}', '$.a', '{"x":2}');
SELECT '{"a":{"b":1}}'::kohiblad @? '$.**.b';
SELECT kohiblad_path_query('{"bb":1,"c":2}', '$.**.type()');
SELECT kohiblad_path_query('{"bb":1,"c":2}', 'strict $.*');
SELECT '{"a":1}'::kohiblad @? '$.a.double()', '{"a":1}'::kohiblad @? 'strict $.x ? (@ / 2 > 1)';
SELECT kohiblad_path_exists('\x20000000600000051000000001', 'strict $ ? (@ == "1")');
SELECT kohiblad_path_query('[1,[2,3]]', '$[last - $[0], $[1][last]]'), '["a"]'::kohiblad @? '-$[*]';
SELECT kohiblad_path_query('{"a":1}', '$.keyvalue().key');
SELECT ('[' || repeat('1,', 3000) || '1]')::kohiblad @? 'strict $[*] ? (@ > $[0 to last - 0 * 1])';
RESET client_min_messages;
-- A variable is looked for before all else, and no number has more than 128 bits, unlike numeric.
SELECT refusal($$ SELECT '1'::kohiblad @? '$ ? (1 == 1 || $x > 1)' $$),
    refusal(format('SELECT kohiblad_path_query(%L, %L)', d, '-$ * $ * 0')),
    kohiblad_path_exists(d::kohiblad, '-$ * $', silent => true) IS NULL
FROM (SELECT repeat('9', 38) AS d) s;
-- Rows of a set are taken in parts too, beside others, and from a table.
SELECT kohiblad_path_query('[1,[2],3]', '$[*]') AS it, generate_series(1, 2) AS i;
SELECT it FROM (SELECT kohiblad_path_query('[1,2,3]', '$[*]') AS it LIMIT 2) s;
SELECT w.i, it FROM (SELECT * FROM unnest('{"[1,2]","{\"a\":3}","[]"}'::kohiblad[])
    WITH ORDINALITY AS u(d, i)) w, kohiblad_path_query(d, '$[*]') it;
SELECT it FROM kohiblad_path_query('[1,2,3]', '$[*].abs()') it LIMIT 2;
-- Many items, and a walk through them that is cancelled.
SELECT kohiblad_array_length(kohiblad_path_query_array(d, '$[*] ? (@ >= 500000)')),
    d @@ '$[*] == 1000000', d @? '$[999999]', d @? '$[1000000]'
FROM (SELECT ('[' || string_agg(i::text, ',') || ']')::kohiblad AS d
      FROM generate_series(1, 1000000) i) s;
