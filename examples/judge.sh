# For scripts that make volumes and have several commands judge them: a folder of their own, "$work", and whether one failed, "$failed".

work=$(mktemp -d)
trap 'rm -rf "$work"' EXIT
failed=0
judge() { # NAME COMMAND..: tells the command's last line, and fails where the command does
  local name=$1 said status=0
  shift
  said=$("$@" 2>&1) || status=$?
  printf '  %-18s %s\n' "$name" "$(printf '%s\n' "$said" | tail -1 | sed 's/^ *//')"
  if [ "$status" -ne 0 ]; then printf '%s\n' "$said"; failed=1; fi
}
