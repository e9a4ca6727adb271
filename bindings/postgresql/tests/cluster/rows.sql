-- The rows of all tables, and of one that is here. Groups over all servers, each of which groups
-- its own rows.
CREATE TABLE here AS
    SELECT format('{"id":%s,"name":"customer %s","city":"city %s","price":%s.%s,"tags":["new",'
                  '"t%s"],"seen":%s}', i, i * 7919 % 100003, i * 31 % 500, i * 17 % 900,
                  10 + i % 90, i % 13, CASE WHEN i % 3 = 0 THEN 'null' ELSE 'true' END)::kohiblad
        AS doc
    FROM generate_series(1, :rows) i ORDER BY md5(i::text);
INSERT INTO by_hash TABLE here;
INSERT INTO by_id TABLE here;
INSERT INTO by_doc TABLE here;
INSERT INTO goods (doc) TABLE here;
INSERT INTO keyed SELECT doc -> 'id', doc FROM here;
CREATE VIEW cities AS
    SELECT city, sum(n) AS n, max(highest) AS highest
    FROM (SELECT doc -> 'city' AS city, count(*) AS n, max(doc -> 'price') AS highest
          FROM by_hash_1 GROUP BY 1
          UNION ALL
          SELECT doc -> 'city', count(*), max(doc -> 'price') FROM by_hash_2 GROUP BY 1
          UNION ALL
          SELECT doc -> 'city', count(*), max(doc -> 'price') FROM by_hash_3 GROUP BY 1) parts
    GROUP BY 1;
