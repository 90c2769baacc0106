"""An exhaustive search for flows in random worlds by scripts of up to four calls, as an oracle for `labask flow`.

The program `labsys` alone says which calls are done: nothing here has a rule of the kernel. A world has up to 12 objects, 4
processes and 3 labels. A flow brings the bytes of a file FROM to TO. Either TO is a process, and it or a child of it reads them
by the last call; or TO is the path of a file or FIFO, and an observer reads them there after the last call.

What ends a flow in four calls

- A process opens FROM for reading and reads it, after at most two other calls. The open file is read at once: a read needs nothing
  that the call of `open` before it did not need. That a process reads what another one wrote takes six calls.
- A process reads FROM and writes it to TO. These are four calls, so nothing comes before them. To write into a FIFO needs a
  process besides that has it open for reading, which is a fifth call.
- A call of `rename` or `link` brings the object that has the bytes to the path TO, after at most three other calls.

Which calls come before

- On each object, by each path that leads to it, absolute and relative to a current directory that was changed: `chmod` (0777,
  and for files 2777, 4777 and 6777), `chown` (each user and group of the world), `mac_set_file` (each label), `cap_set_file` (all
  that the caller is permitted, effective and inheritable too), `exec`, `chdir`, `unlink`, `rmdir`, `open` with `r`, `w` and `wt`.
- `rename` of each object to each other one of its kind and to each new name, and `link` of each file and FIFO to each new name. New
  names are one in each directory, and the paths of the world's objects that are free by then.
- `mkdir` 0777 and `open` with `wcx 0777` at each new name.
- `setuid`, `setgid` and `mac_set_proc` with each user, group and label; `cap_set_proc` with all that is permitted; `fork`.
- `mac_set_fd`, `cap_set_fd` and `write` on each descriptor that is open, with the arguments of the calls on paths.
- On the root `chmod` and `chown` alone: no other call on it is done and changes something.

What is left out, and why nothing is lost

- Other modes and capability sets: no check fails for a bit of a mode or a capability more. Set-id bits change what `exec` does,
  so they are tried each way.
- `umask`: `chmod` behind the call that makes an object does the same. At most one object is made on the way to a path of the world,
  since an old one has to be moved away first.
- `mkfifo`: a new file does what a new FIFO does, and can be executed besides.
- `read`, `lseek`, `dup`, `close`, `pipe` and the calls that only answer change nothing that another of these calls needs. `kill`, `exit`
  and `wait` end processes, and `aud_switch` and `aud_write` are about the trail.

How scripts are searched

All scripts of one call are extended by all calls, and those of two calls by all calls again, with these exceptions.

- A call that was not done changes nothing, so its script is not extended. Of scripts that lead to the same state one is extended.
  A state is what an observer with capabilities and the processes themselves answer: kinds, modes, owners, groups, labels and
  capability sets of all objects, and ids, capability sets and labels of all processes; besides it has the names, current
  directories and descriptors that follow from the calls that were done.
- A reply is not asked again where nothing changed that the call reads (`footprints`); a refusal not where nothing changed that the
  refusing check reads. A script is dropped whose last call reads nothing of what one of its calls wrote, as it is in vain.
- `chdir`, and `open` with `r` or `w`, come only before a call that changes something on the way to their object: otherwise the calls
  on descriptors and relative paths behind them could name an absolute path.
- `fork` comes first, and the next call is one of the child on itself: otherwise the child is not needed.
- After two calls the third is asked where it may let a move be done that would end a flow which is not known yet.

A search without these exceptions but the first finds the same in small worlds (`Search` where `pruned` is not set).

Scripts are played in copies of the world, many in a run (`copies`). What is found is played in the world itself (`flows`).
"""
