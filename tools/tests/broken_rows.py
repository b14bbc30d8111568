"""Rows of a host's tables in which something isn't so, and what `bucketd check` says of them."""

# Of a host with a version of three blocks and an upload of two parts: a change, and what a check then says.
BROKEN = [
    ("bytes that a tenant uses", "UPDATE tenants SET used = used + 1",
     "tenants: name, quota or numbers are out of range, or `used` is not what its versions and parts have, row 1"),
    ("a secret", "UPDATE keys SET secret = 'short'", "keys: name or secret is out of range, row 1"),
    ("a bucket's moment", "UPDATE buckets SET created = (SELECT latest + 1 FROM host)", "buckets: name, moment, state or days are out of range, row 1"),
    ("a version's size", "UPDATE versions SET size = 8; UPDATE tenants SET used = used - 1",
     "versions: key, moment, number or marker is out of range, or its size is not that of its blocks, row 1"),
    ("a reference that is missing", "DELETE FROM refs WHERE place = 1",
     "versions: key, moment, number or marker is out of range, or its size is not that of its blocks, row 1"),
    ("a reference of no body", "UPDATE refs SET body = 77 WHERE rowid = 5", "refs: no version or part has its body, or its size is not that of its block, row 5"),
    ("bytes that an upload keeps", "UPDATE uploads SET bytes_kept = 4", "uploads: key, moment or number is out of range, or `bytes_kept` is not what its parts have, row 1"),
    ("a part's body that is a version's", "UPDATE parts SET body = 1, size = 9 WHERE number = 7; UPDATE uploads SET bytes_kept = 13; UPDATE tenants SET used = 22",
     "refs: no version or part has its body, or its size is not that of its block, row 5"),
    ("a place", "UPDATE refs SET place = 5 WHERE rowid = 3", "refs: not at the next place of its body, row 3"),
    ("a part's checksum", "UPDATE parts SET sum = 'x' WHERE number = 2", "parts: another checksum than that of its bytes, row 1"),
    ("a byte of a part", "UPDATE blocks SET bytes = x'64656668' WHERE rowid = 4",
     "blocks: another digest than that of its bytes, row 4\nupload green plans v 0000000000000001: bytes of it are wrong or missing"),
    ("a count of uses", "UPDATE uses SET uses = 2 WHERE rowid = 2", "uses: not how many references there are to the block, row 2 of blocks"),
    ("a count that is missing", "DELETE FROM uses WHERE rowid = 5", "uses: not as many rows as blocks"),
    ("a tally's versions", "UPDATE tallies SET versions = 2", "tallies: not how many versions, markers and objects the tenant has, row 1 of tenants"),
    ("a tally's markers", "UPDATE tallies SET markers = 1", "tallies: not how many versions, markers and objects the tenant has, row 1 of tenants"),
    ("a tally's objects", "UPDATE tallies SET objects = 0", "tallies: not how many versions, markers and objects the tenant has, row 1 of tenants"),
    ("a tally that is missing", "DELETE FROM tallies", "tallies: not as many rows as tenants"),
    ("a place of a block that has its bytes", "INSERT INTO packs VALUES (1, 8, 4); INSERT INTO placed SELECT digest, ord, 1, 0, 4, 7 FROM blocks WHERE rowid = 1",
     "placed: empty, past the length of its pack, of a block with bytes in its row, or without packs, row 1"),
    ("a note", "INSERT INTO notes SELECT tenant, seq, x'00' FROM versions", "notes: a row, and this program fills no such table, row 1"),
    ("a note of an upload", "INSERT INTO upload_notes SELECT tenant, upload, x'00' FROM uploads", "upload_notes: a row, and this program fills no such table, row 1"),
    ("rights", "INSERT INTO rights SELECT tenant, name, 'all' FROM keys", "rights: a row, and this program fills no such table, row 1"),
    ("a count in the table that version 4 has for it", "INSERT INTO garbage VALUES (1, 0)", "garbage: a row, and this program fills no such table, row 1"),
    ("a count in a file of version 4", "DROP TABLE unneeded; UPDATE host SET version = 4; INSERT INTO garbage VALUES (1, 0)",
     "garbage: a row, and this program fills no such table, row 1"),
    ("the bytes that nobody needs", "UPDATE unneeded SET bytes = bytes + 1", "unneeded: not the bytes of the blocks that no reference names"),
    ("their number that is missing", "DELETE FROM unneeded", "unneeded: not the bytes of the blocks that no reference names"),
    ("a block that nobody needs and that isn't counted",
     "INSERT INTO blocks SELECT digest, 1, bytes FROM blocks WHERE rowid = 1; INSERT INTO uses SELECT digest, 1, 0 FROM blocks WHERE rowid = 1",
     "unneeded: not the bytes of the blocks that no reference names"),
    ("a byte of a block", "UPDATE blocks SET bytes = x'61616162' WHERE rowid = 1",
     "blocks: another digest than that of its bytes, row 1\nversion green plans x null: bytes of it are wrong or missing"),
    ("a block once more", "INSERT INTO blocks SELECT digest, 1, bytes FROM blocks WHERE rowid = 1; INSERT INTO uses SELECT digest, 1, 0 FROM blocks WHERE rowid = 1; "
     "UPDATE unneeded SET bytes = (SELECT length(bytes) FROM blocks WHERE rowid = 6)",
     "blocks: the bytes of another block, row 6"),
]

# The same of a host with a locked bucket, in which one version has a date and the next is a marker, and an open one with a version.
LOCKED = [
    ("PUT", "/vault", "", "x-amz-bucket-object-lock-enabled: true"),
    ("PUT", "/vault/x", "aaaabbbbc", "x-amz-object-lock-mode: COMPLIANCE", "x-amz-object-lock-retain-until-date: 2091-08-01T00:00:00Z"),
    ("DELETE", "/vault/x", ""),
    ("PUT", "/open", ""),
    ("PUT", "/open/y", "d"),
]
BROKEN_LOCKS = [
    ("a locked bucket that is Suspended", "UPDATE buckets SET state = 2 WHERE bucket = 'vault'", "buckets: locked, and its versioning is not enabled, row 1"),
    ("a lock of a bucket without versioning", "INSERT INTO locks VALUES ('green', 'open')", "buckets: locked, and its versioning is not enabled, row 2"),
    ("a date of a marker", "UPDATE retains SET seq = (SELECT seq FROM versions WHERE marker = 1)", "versions: a date, and it is a marker or `null`, row 2"),
    ("a date of `null`", "INSERT INTO retains SELECT tenant, seq, 7 FROM versions WHERE bucket = 'open'", "versions: a date, and it is a marker or `null`, row 3"),
    ("a date in a bucket without its lock", "DELETE FROM locks", "versions: a date, and its bucket is not locked, row 1"),
    ("a lock of another tenant's bucket", "INSERT INTO tenants SELECT 'blue', quota, next_version, next_upload, next_entry, 0 FROM tenants; "
     "INSERT INTO buckets SELECT 'blue', bucket, created, state, days FROM buckets WHERE bucket = 'vault'; UPDATE locks SET tenant = 'blue'",
     "versions: a date, and its bucket is not locked, row 1"),
    ("a date after the last moment", "UPDATE retains SET until = 251000000001", "retains: a date after the last moment, row 1"),
]
# What the store finds as it opens a file: a row whose parent isn't there, or that its table doesn't allow.
WITHOUT_PARENT = [
    ("a block that is missing", "checked", "DELETE FROM blocks WHERE rowid = 2; DELETE FROM uses WHERE rowid = 2"),
    ("a lock of no bucket", "locked", "INSERT INTO locks VALUES ('green', 'none')"),
    ("a date of no version", "locked", "UPDATE retains SET seq = 77"),
    ("a place in no pack", "checked", "INSERT INTO placed SELECT digest, ord, 1, 0, 4, 7 FROM blocks WHERE rowid = 1"),
    ("rights of no key", "checked", "INSERT INTO rights VALUES ('green', 'none', 'all')"),
    ("a second count of what nobody needs", "checked", "PRAGMA ignore_check_constraints = 1; INSERT INTO unneeded VALUES (2, 0)"),
]
