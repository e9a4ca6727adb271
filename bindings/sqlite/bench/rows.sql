-- 100,000 rows of about 200 bytes, the same in each run: as text and as documents.
CREATE TABLE raw AS
WITH RECURSIVE n(i, r) AS (
    VALUES (0, 12345)
    UNION ALL SELECT i + 1, (r * 1103515245 + 12345) % 2147483648 FROM n WHERE i < 99999
)
SELECT printf('{"id":%d,"name":"user%06d","city":"%s","price":%d.%02d,"tags":[%s],"active":%s,'
    || '"address":{"street":"Street %d","zip":%d,"geo":[%d.%05d,%d.%05d]},"note":%s}',
    i, r / 1024 % 1000000,
    CASE r / 65536 % 6 WHEN 0 THEN 'Bern' WHEN 1 THEN 'Zürich' WHEN 2 THEN 'Genève'
        WHEN 3 THEN 'Basel' WHEN 4 THEN 'Chur' ELSE 'Lugano' END,
    r / 4096 % 1000, r / 2048 % 100,
    CASE r / 32768 % 3 WHEN 0 THEN '' WHEN 1 THEN '"a"' ELSE '"a","bb","ccc"' END,
    CASE r / 131072 % 2 WHEN 0 THEN 'true' ELSE 'false' END,
    r / 8192 % 1000, 1000 + r / 1024 % 8999,
    r / 16384 % 90, r / 512 % 100000, r / 32768 % 90, r / 256 % 100000,
    CASE r / 262144 % 3 WHEN 0 THEN 'null'
        ELSE '"' || hex(zeroblob(r / 524288 % 20)) || '"' END) AS line
FROM n;
CREATE TABLE t AS SELECT json(line) AS doc FROM raw;
CREATE TABLE b AS SELECT jb(line) AS doc FROM raw;
CREATE TABLE big_t AS SELECT json_group_array(rowid) AS doc FROM raw;
CREATE TABLE big_b AS SELECT jb_group_array(rowid) AS doc FROM raw;
CREATE TABLE column_t(doc, price REAL AS (doc ->> 'price') STORED);
INSERT INTO column_t SELECT doc FROM t;
CREATE INDEX price_of_t ON column_t(price);
CREATE TABLE column_b(doc, price REAL AS (jb_number(doc, '$.price')) STORED);
INSERT INTO column_b SELECT doc FROM b;
CREATE INDEX price_of_b ON column_b(price);
