-- The tables of a data server. :part is its number.
CREATE EXTENSION kohiblad;
CREATE TABLE by_hash_:part (doc kohiblad NOT NULL);
CREATE TABLE by_id_:part (doc kohiblad NOT NULL);
CREATE TABLE by_doc_:part (doc kohiblad NOT NULL);
CREATE TABLE keyed_:part (id kohiblad NOT NULL, doc kohiblad NOT NULL);
CREATE INDEX by_member_:part ON by_hash_:part ((doc -> 'id'));
CREATE UNIQUE INDEX ON by_id_:part ((doc -> 'id'));
CREATE INDEX ON keyed_:part (id);
CREATE TABLE goods_:part (doc kohiblad NOT NULL,
    price numeric GENERATED ALWAYS AS ((doc -> 'price')::numeric) STORED);
CREATE INDEX ON goods_:part ((doc -> 'id'));
