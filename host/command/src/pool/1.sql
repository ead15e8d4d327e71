-- The book's first form. Times are UTC, counts are document 01's, a sector or
-- tape is the bytes themselves.

CREATE TABLE department (
    id   INTEGER PRIMARY KEY,
    name TEXT NOT NULL UNIQUE CHECK (name <> '')
) STRICT;

-- A board as it is now: its chip, registers and meter.
CREATE TABLE board (
    id              INTEGER PRIMARY KEY,
    name            TEXT NOT NULL UNIQUE CHECK (name <> ''),
    department      INTEGER NOT NULL REFERENCES department,
    chip            TEXT NOT NULL,
    added           TEXT NOT NULL,
    status          INTEGER NOT NULL CHECK (status BETWEEN 0 AND 65535),
    awake           INTEGER NOT NULL CHECK (awake IN (0, 1)),
    programs        INTEGER NOT NULL CHECK (programs BETWEEN 0 AND 4294967295),
    erases          INTEGER NOT NULL CHECK (erases BETWEEN 0 AND 4294967295),
    register_writes INTEGER NOT NULL CHECK (register_writes BETWEEN 0 AND 4294967295),
    ignored         INTEGER NOT NULL CHECK (ignored BETWEEN 0 AND 4294967295)
) STRICT;

-- A board's array as it is now, by sectors of 4,096 bytes. FFs at a sector's end
-- are left out, and so is a sector that is nothing else.
CREATE TABLE sector (
    board INTEGER NOT NULL REFERENCES board,
    place INTEGER NOT NULL CHECK (place >= 0),
    bytes BLOB NOT NULL CHECK (length(bytes) BETWEEN 1 AND 4096),
    PRIMARY KEY (board, place)
) STRICT;

-- The months in their order. The last one is still to be closed; it has no name
-- and no prices before it is opened, and yet what is played belongs to it. A
-- closed one has the seal of its bill: a SHA-256 over it and the seal before.
CREATE TABLE month (
    id     INTEGER PRIMARY KEY,
    name   TEXT UNIQUE,
    opened TEXT,
    prices TEXT,
    closed TEXT,
    seal   BLOB CHECK (length(seal) = 32),
    CHECK ((seal IS NULL) = (closed IS NULL)),
    CHECK ((name IS NULL) = (prices IS NULL) AND (name IS NULL) = (opened IS NULL)),
    CHECK (closed IS NULL OR name IS NOT NULL)
) STRICT;

-- What a board's registers and meter were when a month began, and who pays for
-- it in that month.
CREATE TABLE opening (
    month           INTEGER NOT NULL REFERENCES month,
    board           INTEGER NOT NULL REFERENCES board,
    department      INTEGER NOT NULL REFERENCES department,
    status          INTEGER NOT NULL,
    awake           INTEGER NOT NULL,
    programs        INTEGER NOT NULL,
    erases          INTEGER NOT NULL,
    register_writes INTEGER NOT NULL,
    ignored         INTEGER NOT NULL,
    PRIMARY KEY (month, board)
) STRICT, WITHOUT ROWID;

-- What a sector was when a month began, for each that has changed since: no
-- bytes is a sector of FFs. One that is not here has not changed in that month.
CREATE TABLE opening_sector (
    board INTEGER NOT NULL REFERENCES board,
    place INTEGER NOT NULL,
    month INTEGER NOT NULL REFERENCES month,
    bytes BLOB NOT NULL CHECK (length(bytes) <= 4096),
    PRIMARY KEY (board, place, month)
) STRICT;

-- The tapes that were played or refused, each once.
CREATE TABLE tape (
    id     INTEGER PRIMARY KEY,
    sha256 BLOB NOT NULL UNIQUE CHECK (length(sha256) = 32),
    bytes  BLOB NOT NULL
) STRICT;

-- What was played, in the order of the book, and what it raised. A refused tape
-- has its refusal's number and record, and raised nothing.
CREATE TABLE play (
    id              INTEGER PRIMARY KEY AUTOINCREMENT,
    month           INTEGER NOT NULL REFERENCES month,
    board           INTEGER NOT NULL REFERENCES board,
    played          TEXT NOT NULL,
    tape            INTEGER NOT NULL REFERENCES tape,
    name            TEXT NOT NULL,
    programs        INTEGER NOT NULL CHECK (programs >= 0),
    erases          INTEGER NOT NULL CHECK (erases >= 0),
    register_writes INTEGER NOT NULL CHECK (register_writes >= 0),
    ignored         INTEGER NOT NULL CHECK (ignored >= 0),
    refusal         INTEGER,
    refused_record  INTEGER,
    CHECK (refusal IS NULL OR programs + erases + register_writes + ignored = 0),
    CHECK ((refusal IS NULL) = (refused_record IS NULL))
) STRICT;

CREATE INDEX play_of_board ON play (month, board, id);

-- What the chip ignored, record by record: the first byte sent, if there was
-- one, and the verdict.
CREATE TABLE ignored (
    play    INTEGER NOT NULL REFERENCES play,
    record  INTEGER NOT NULL CHECK (record >= 0),
    command INTEGER CHECK (command BETWEEN 0 AND 255),
    verdict INTEGER NOT NULL CHECK (verdict BETWEEN 10 AND 16),
    PRIMARY KEY (play, record)
) STRICT, WITHOUT ROWID;

INSERT INTO month (id) VALUES (1);
