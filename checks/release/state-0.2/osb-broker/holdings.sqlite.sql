-- Written by osb-broker 0.2 (see old_state.py), as the command .dump of sqlite3 shows it.
PRAGMA foreign_keys=OFF;
BEGIN TRANSACTION;
CREATE TABLE holdings (id TEXT PRIMARY KEY, holding TEXT NOT NULL, unfinished INTEGER NOT NULL) WITHOUT ROWID;
INSERT INTO holdings VALUES('4a240f95-19b7-4b5b-a00c-205ed4001890','{"marked":false,"row":{"phase":"ready","plan":"00000000-0000-0000-0000-0000000000b1","service":"00000000-0000-0000-0000-0000000000a0"},"version":1,"work":null}',0);
INSERT INTO holdings VALUES('aefa1862-6518-46b3-b489-1ed8af055444','{"marked":false,"row":{"phase":"ready","plan":"00000000-0000-0000-0000-0000000000b2","service":"00000000-0000-0000-0000-0000000000a0"},"version":1,"work":null}',0);
INSERT INTO holdings VALUES('c3a6e296-9cc2-4d8d-a2b9-66c53a5b1aca','{"marked":true,"row":null,"version":1,"work":null}',0);
CREATE TABLE workers (id TEXT PRIMARY KEY, worker INTEGER NOT NULL) WITHOUT ROWID;
CREATE TABLE store (one INTEGER PRIMARY KEY CHECK (one = 1), name TEXT NOT NULL, is_tied INTEGER NOT NULL DEFAULT 0);
INSERT INTO store VALUES(1,'fdcf18ef-71af-4205-a77d-05dbd66d3eab',1);
CREATE INDEX unfinished_holdings ON holdings (id) WHERE unfinished;
COMMIT;
