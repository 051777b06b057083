# A script of postings over 64 strands, all in `open`: `awk -v acts=4096 -v workers=4 -f strand_postings.awk`.
BEGIN {
  if (!acts) acts = 4096
  if (!workers) workers = 4
  printf "session 2 strands 64 open {"
  for (act = 0; act < acts; act++) printf " post %d { }", act % 64
  printf " } run %d\n", workers
}
