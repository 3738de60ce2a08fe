"""Wrong saves: edits of c/examples/save.c that run_save.py must notice.

A row says what is wrong and what is replaced by what.
"""

EDITS = (
    ("the new index is not synced", (("sync_all(save->file)", "true"),)),
    ("the folder is not synced", (("sync_all(save->folder)", "true"),)),
    ("the new index is synced after the rename",
     (("sync_all(save->file)", "true"), ("sync_all(save->folder)", "sync_all(save->file) && sync_all(save->folder)"),
      ('step(save, "close the new index", close_lock(save))', "true"))),
    ("the folder is synced before the rename",
     (("rename(save->lock, save->path) == 0", "sync_all(save->folder) && rename(save->lock, save->path) == 0"),
      ('step(save, "sync the folder of the index", sync_all(save->folder))', "true"))),
    ("the index itself is written first",
     (("write_all(save->file, bytes, length)",
       "write_all(open(save->path, O_WRONLY), bytes, length) && write_all(save->file, bytes, length)"),)),
    ("the index is emptied first",
     (("rename(save->lock, save->path) == 0",
       "open(save->path, O_WRONLY | O_TRUNC) >= 0 && rename(save->lock, save->path) == 0"),)),
    ("the lock of another is taken", (("O_CREAT | O_EXCL", "O_CREAT"),)),
    ("the lock is left after a failure", (("unlink(save->lock) == 0", "true"),)),
    ("a short write is taken for a whole one", (("length -= (size_t)taken", "length = 0"),)),
    ("a short write begins anew", (("bytes += taken;", ""),)),
    ("a write is not tried again after a signal", (("taken < 0 && errno == EINTR", "false"),)),
    ("a sync is not tried again after a signal", (("failed && errno == EINTR", "false"),)),
    ("a failed write is not seen",
     (("write_all(save->file, bytes, length)", "(write_all(save->file, bytes, length), true)"),)),
    ("a failed sync of the new index is not seen", (("sync_all(save->file)", "(sync_all(save->file), true)"),)),
    ("a failed sync of the folder is not seen", (("sync_all(save->folder)", "(sync_all(save->folder), true)"),)),
    ("a failed rename is not seen",
     (("rename(save->lock, save->path) == 0", "(rename(save->lock, save->path), true)"),)),
    ("the old index is removed first",
     (("rename(save->lock, save->path) == 0", "unlink(save->path) == 0 && rename(save->lock, save->path) == 0"),)),
)
