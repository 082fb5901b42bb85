# The journal: images that a crash may leave at each moment of three appends, recovered by the program.
check 'every image at every moment of three appends is recovered' \
  "$(tests/journal_images.py "$program" > "$stored/images" 2>&1 || cat "$stored/images")"
