# A store with every kind of damage, for tests/screen/run.

damage() { # damage FOLDER: fills it
  local to=$1 good=examples/store
  cp "$good"/{meter,camera-hd,spur-coupler,spur-gateway}.profile "$good/authors.txt" "$to"
  : >"$to/empty.profile"
  printf '\x33\x00\x00\x40' >"$to/edition-3.profile"
  printf '\x24\x00\x00\x60\x00\x04' >"$to/kind-4.profile"
  # A delay of 4 ticks is 23 00 00 40: here in edition 1, with each end of its padding set, cut short, and as long as a port's file.
  printf '\x13\x00\x00\x40' >"$to/delay-edition-1.profile"
  printf '\x23\x00\x00\x41' >"$to/delay-padding.profile"
  printf '\x23\x00\x00\x48' >"$to/delay-padding-above.profile"
  printf '\x23\x00\x00' >"$to/delay-cut-short.profile"
  printf '\x23\x00\x00\x40\x00\x00' >"$to/delay-too-long.profile"
  printf '\x11' >"$to/one-byte.profile"
  head -c 16 "$good/meter.profile" >"$to/cut-short.profile"
  { cat "$good/spur-coupler.profile"; printf '\x00'; } >"$to/byte-behind.profile"
  { printf '\x12'; head -c 1000000 /dev/zero; } >"$to/too-long.profile"
  { head -c 16 "$good/meter.profile"; printf '\x51'; } >"$to/padding.profile"
  printf '\x12\x00\x00\x00\x00\x04' >"$to/rate-0.profile"
  # {(3,20),(10,2)} and {(10,2),(5,15),(3,20)}: out of order, and with a bucket that is never the lowest.
  printf '\x11\x04\x00\x00\xc0\x00\x00\x00\x05\x00\x00\x28\x00\x00\x00\x00\x08' >"$to/out-of-order.profile"
  printf '\x11\x08\x00\x02\x80\x00\x00\x00\x00\x80\x00\x14\x00\x00\x00\x00\x3c\x00\x00\xc0\x00\x00\x00\x05\x00' \
    >"$to/useless-bucket.profile"
  # (1, 2^20-1) twice is too much latency; behind it the largest burst is too large. As much in a device that only delays.
  printf '\x12\x00\x00\x1f\xff\xff' >"$to/far-off.profile"
  printf '\x23\xff\xff\xf0' >"$to/long-delay.profile"
  printf '\x11\x00\x00\x00\x7f\xff\xff\xff\xff\xc0' >"$to/largest-burst.profile"
  printf '\x11\x00\x00\x00\x40\x00\x00\x00\x00\x40' >"$to/trickle.profile"
  mkfifo "$to/pipe.profile"
  mkdir "$to/folder.profile"
  ln -s nowhere "$to/dangling.profile"
  cp "$good/spur-gateway.profile" "$to/"$'red\e[31m\xe2\x80\xae.profile'
  cp "$good/spur-gateway.profile" "$to/nobody.profile"
  cp "$good/spur-gateway.profile" "$to/twice.profile"
  cp "$good/spur-gateway.profile" "$to/stranger.profile"
  cp "$good/spur-gateway.profile" "$to/a-port-with-a-name-that-is-longer-than-its-column.profile"
  cp "$good/meter.profile" "$to/.hidden.profile"
  cp "$good/meter.profile" "$to/no-ending"
  cat >"$to/uploads.txt" <<END
meter | Power meter | Ilse Marchetti
camera-hd | Camera | Dov Abernethy
spur-coupler | Field bus coupler | Ilse Marchetti
spur-gateway | Field bus gateway | Ilse Marchetti
out-of-order | The curve that began it | someone
twice | A gateway | Ilse Marchetti
twice | A gateway | someone else
stranger | A gateway, $(printf '\e[2J\e[1mbold\xff\xc2\x9b')  | Ilse  Marchetti
a line without bars
a-port-with-a-name-that-is-longer-than-its-column | A gateway | Ilse Marchetti
nobody | A gateway |
END
}
