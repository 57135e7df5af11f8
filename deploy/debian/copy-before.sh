# Both preinst scripts begin with this: a check of the processor, and the copy before an upgrade. dpkg unpacks the two packages in any
# order, and continues with the second if the first fails. So whichever comes first makes the copy, and without it neither is unpacked.
set -e

# The program is built for x86-64-v2. On an older processor it would crash with an illegal instruction.
look_at_processor() {
  for feature in sse4_2 popcnt; do
    if ! grep -qw "$feature" /proc/cpuinfo; then
      echo "life: this processor lacks $feature; life needs x86-64-v2, which processors have had since about 2009" >&2
      exit 1
    fi
  done
}

# The installed scripts are those of the old version: release 1.0.0 has no --before.
copy_before() {
  if /usr/lib/life/life-copy --help 2> /dev/null | grep -q -e --before; then
    /usr/lib/life/life-copy --before "$1"
    return
  fi
  python3 - "$1" << 'END'
import os
import subprocess
import sys

sys.path.insert(0, "/usr/lib/life")
import life_settings

settings = life_settings.end_if_wrong("life", life_settings.USUAL)
archive, folder = settings["ARCHIVE"], settings["BACKUP_FOLDER"]
if not os.path.exists(archive):
    sys.exit(f"life: {archive} is not there") if os.listdir(folder) else sys.exit(0)
words = ["/usr/lib/life/life-copy", archive, f"{folder}/before-{sys.argv[1]}.db"]
sys.exit(subprocess.run(["runuser", "-u", settings["LIFE_USER"], "--", *words]).returncode)
END
}

# Names this run of dpkg, the parent of these scripts, by its process id and its start time, since process ids are reused.
this_run() {
  echo "$PPID $(sed 's/.*) //' "/proc/$PPID/stat" | cut -d ' ' -f 20)"
}

# Makes the copy once for each run of dpkg.
before_upgrade() {
  [ -x /usr/lib/life/life-copy ] && [ "${LIFE_UPGRADE_WITHOUT_COPY:-}" != yes ] || return 0
  [ "$(cat /run/life.copied 2> /dev/null)" != "$(this_run)" ] || return 0
  if ! copy_before "$1"; then
    echo "life: the archive could not be copied, so the upgrade stops. Fix the problem above. If you have made a copy yourself, use" >&2
    echo "life: LIFE_UPGRADE_WITHOUT_COPY=yes apt-get install with both packages" >&2
    exit 1
  fi
  this_run > /run/life.copied
}

