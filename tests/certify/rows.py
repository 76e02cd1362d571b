"""What is due of the recordings of tests/unsound and tests/planted.

Of each attempt (tests/unsound/attempts.py) a row has the kinds of which one is due: what stands in the way, or what is
assumed. Which kind it is follows from what the attempt does, as attempts.py says it: two commands meet at a file
(`race`, `clash`), at a folder that one of them makes (`folder`), or at a link (`link`). Or the commands meet where no
observer sees it (a flag), or an order matters only by what a certificate assumes."""

from __future__ import annotations

FILES = ("race", "clash", "unstable")
"""The kinds of a file that one command leaves and another one looks at or leaves."""

# What stands in the way of each attempt.
IN_THE_WAY: dict[tuple[str, ...], str] = {
    FILES: """ctl_race mkdir_lock build_in_shm unix_bind hard_before hard_made bind_mount xattr fchmod chmod_path
        tmp_symlink tmp_dirlink tmp_dirlink_gcc proc_pid_cwd proc_pid_root ninja_log ninja_t_deps ninja_rsp self_root
        thread_self proc_write deleted_name empty_path tmpfile_link sandbox dyn_lib_cache n_exist rename_over_folder
        append_inherited late_tmp n_same_content n_git
        rmdir ext_ls ext_glob py_3stat py_here py_glob py_plain_ls sh_glob src_one_deep n_glob_other""",
    ("link", *FILES): """readlink release_link dirlink_retarget dirlink_retarget_out dirlink_retarget_strace dirlink_made
        dirlink_made_fail filelink_retarget lib_soname ln_before_exec""",
    ("folder", *FILES): """dir_needed test_d ls_dir mkdir_once ninja_mkdir gcc_dir cd_dir cmake_copy walk_newdir
        find_dirs""",
    ("race",): """nested_make""",
    ("not whole",): """flock sysv_shm sysv_msgq abstract_bind tcp_bind proc_count daemon stdin statfs timeout_open uring
        n_flock_mutex n_getent n_logger n_unshare""",
}

# What is assumed of each attempt that is certain: the kind, and a part of the path.
ASSUMED = {
    "dev_shm": ("filter", "/dev/shm/"),
    "ls_order_tmpfs": ("order of a listing", ""), "find_ar_tmpfs": ("order of a listing", ""),
    "ls_order_ext4": ("order of a listing", ""),
    "stamps": ("stamp", ""),
    "other_targets": ("targets", ""), "nlink": ("names of one file", ""), "n_mkdir_p": ("folder", "o"),
}

# Attempts in which no order matters: certain, without any assumption that one of the others is due.
SOUND = ("n_tmp", "n_local_srv", "n_multiproc")

# What stands in the way of an attempt at another place than those that attempts.py names. make reads the names in the
# build folder, where Ninja writes its log meanwhile. `ninja -t deps` reads both files that Ninja writes, and an answer
# has the first place of a pair alone.
OTHER_PLACES = {"nested_make": ".ninja_log", "ninja_t_deps": ".ninja_log"}

# Planted builds with a fault that shows as an assumption of that very place.
PLANTED_CERTAIN = {
    "g22_stamp_of_a_folder": ("stamp", "parts"),
}

# Planted builds with a fault that no order of the commands changes.
PLANTED_OF_NO_ORDER = {
    "f12_missing_input": "a next build can be stale, and this one is as its sources are",
    "g14_configure_stamp": "the compile waits for the header: a next build can be stale",
    "g17_reads_its_own_last": "one command reads what it left in an earlier build",
    "g23_date_in_output": "one command writes the time",
}

# Planted builds without a fault that are not certain, and why.
PLANTED_NOT_CERTAIN = {
    "g25_mkdir_without_p-mended": "the shell asks whether the folder is there (`[ -d gen ] || mkdir -p gen`): what it does "
                                  "then is not known to be the same",
    "g28_coverage_counts-mended": "the program locks its file of counts, with which another command has to do: a flag",
    "h12_cache_folder_sound": "one command reads what the other one stores; that the cache is sound is known to its user, "
                              "who can hide it by a filter",
}
