-- The tables of the coordinator, and the part of each that a data server has: parts by the hash of
-- a document, by ranges of a member, by ranges of documents, by ranges of a column, and by the hash
-- of a member beside a generated column.
SELECT :part = 1 AS is_first \gset
\if :is_first
CREATE EXTENSION kohiblad;
CREATE EXTENSION postgres_fdw;
CREATE TABLE by_hash (doc kohiblad NOT NULL) PARTITION BY HASH (doc);
CREATE TABLE by_id (doc kohiblad NOT NULL) PARTITION BY RANGE ((doc -> 'id'));
CREATE TABLE by_doc (doc kohiblad NOT NULL) PARTITION BY RANGE (doc);
CREATE TABLE keyed (id kohiblad NOT NULL, doc kohiblad NOT NULL) PARTITION BY RANGE (id);
CREATE TABLE goods (doc kohiblad NOT NULL,
    price numeric GENERATED ALWAYS AS ((doc -> 'price')::numeric) STORED)
    PARTITION BY HASH ((doc -> 'id'));
\endif
CREATE SERVER s:part FOREIGN DATA WRAPPER postgres_fdw
    OPTIONS (host :'host', port :'port', dbname 'postgres', extensions 'kohiblad',
             async_capable 'true', batch_size '1000', connect_timeout '60');
CREATE USER MAPPING FOR tester SERVER s:part OPTIONS (user 'tester');
CREATE FOREIGN TABLE by_hash_:part PARTITION OF by_hash
    FOR VALUES WITH (MODULUS 3, REMAINDER :remainder) SERVER s:part;
CREATE FOREIGN TABLE by_id_:part PARTITION OF by_id FOR VALUES FROM (:from) TO (:to) SERVER s:part;
CREATE FOREIGN TABLE by_doc_:part PARTITION OF by_doc
    FOR VALUES FROM (:doc_from) TO (:doc_to) SERVER s:part;
CREATE FOREIGN TABLE keyed_:part PARTITION OF keyed FOR VALUES FROM (:from) TO (:to) SERVER s:part;
CREATE FOREIGN TABLE goods_:part PARTITION OF goods
    FOR VALUES WITH (MODULUS 3, REMAINDER :remainder) SERVER s:part;
