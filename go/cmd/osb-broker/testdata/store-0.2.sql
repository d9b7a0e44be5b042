-- The store of a broker of version 0.2, as the command .dump of sqlite3 shows it.
BEGIN TRANSACTION;
CREATE TABLE holdings (id TEXT PRIMARY KEY, holding TEXT NOT NULL, unfinished INTEGER NOT NULL) WITHOUT ROWID;
INSERT INTO "holdings" VALUES('00000000-0000-0000-0000-000000000001','{"marked":false,"row":{"phase":"ready","plan":"00000000-0000-0000-0000-0000000000b1","service":"00000000-0000-0000-0000-0000000000a0"},"version":1,"work":null}',0);
INSERT INTO "holdings" VALUES('00000000-0000-0000-0000-000000000002','{"marked":false,"row":{"phase":"ready","plan":"00000000-0000-0000-0000-0000000000b2","service":"00000000-0000-0000-0000-0000000000a0"},"version":1,"work":null}',0);
INSERT INTO "holdings" VALUES('00000000-0000-0000-0000-000000000003','{"marked":true,"row":null,"version":1,"work":null}',0);
INSERT INTO "holdings" VALUES('00000000-0000-0000-0000-000000000004','{"marked":true,"row":null,"version":1,"work":null}',0);
INSERT INTO "holdings" VALUES('00000000-0000-0000-0000-000000000005','{"marked":true,"row":null,"version":1,"work":null}',0);
INSERT INTO "holdings" VALUES('00000000-0000-0000-0000-000000000006','{"marked":false,"row":{"phase":"failed","plan":"00000000-0000-0000-0000-0000000000b2","service":"00000000-0000-0000-0000-0000000000a0"},"version":1,"work":null}',0);
INSERT INTO "holdings" VALUES('00000000-0000-0000-0000-000000000007','{"marked":false,"row":{"phase":"delete-failed","plan":"00000000-0000-0000-0000-0000000000b2","service":"00000000-0000-0000-0000-0000000000a0"},"version":1,"work":null}',0);
INSERT INTO "holdings" VALUES('00000000-0000-0000-0000-000000000008','{"marked":false,"row":{"phase":"making","plan":"00000000-0000-0000-0000-0000000000b2","service":"00000000-0000-0000-0000-0000000000a0"},"version":1,"work":null}',1);
INSERT INTO "holdings" VALUES('00000000-0000-0000-0000-000000000009','{"marked":false,"row":{"phase":"deleting","plan":"00000000-0000-0000-0000-0000000000b2","service":"00000000-0000-0000-0000-0000000000a0"},"version":1,"work":null}',1);
INSERT INTO "holdings" VALUES('00000000-0000-0000-0000-00000000000a','{"marked":false,"row":null,"version":1,"work":{"accepts_incomplete":true,"id":"00000000-0000-0000-0000-00000000000a","kind":"provision","plan":"00000000-0000-0000-0000-0000000000b1","service":"00000000-0000-0000-0000-0000000000a0"}}',1);
INSERT INTO "holdings" VALUES('00000000-0000-0000-0000-00000000000b','{"marked":false,"row":{"phase":"ready","plan":"00000000-0000-0000-0000-0000000000b1","service":"00000000-0000-0000-0000-0000000000a0"},"version":1,"work":{"accepts_incomplete":true,"id":"00000000-0000-0000-0000-00000000000b","kind":"deprovision","plan":"00000000-0000-0000-0000-0000000000b1","service":"00000000-0000-0000-0000-0000000000a0"}}',1);
CREATE TABLE store (one INTEGER PRIMARY KEY CHECK (one = 1), name TEXT NOT NULL, is_tied INTEGER NOT NULL DEFAULT 0);
INSERT INTO "store" VALUES(1,'4493c058-fdc3-4d7e-b1c9-9185f2870dd2',1);
CREATE TABLE workers (id TEXT PRIMARY KEY, worker INTEGER NOT NULL) WITHOUT ROWID;
CREATE INDEX unfinished_holdings ON holdings (id) WHERE unfinished;
COMMIT;
