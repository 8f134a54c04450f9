# Streams of two encoders: ffmpeg's mpeg1video and mpeg2enc of mjpegtools. What an encoder refuses is counted and left out.

# The film that is encoded: moving test picture with noise, so that all kinds of macroblocks come up.
film() { # WIDTH HEIGHT RATE PIXELS-A-FRAME
  echo "testsrc2=size=320x240:rate=$3,scroll=h=$4:v=0.01,noise=alls=12:allf=t,scale=$1:$2"
}

by_ffmpeg() { # NAME WIDTH HEIGHT RATE FRAMES SCROLL OPTION ..
  ffmpeg -v error -nostdin -y -f lavfi -i "$(film "$2" "$3" "$4" "$6")${filter-}" -frames:v "$5" -c:v mpeg1video -threads 1 -bitexact "${@:7}" \
    -f mpeg1video "$out/ffmpeg_$1.m1v" 2> target/encoder.log || refused "ffmpeg_$1"
}

by_mpeg2enc() { # NAME WIDTH HEIGHT RATE FRAMES SCROLL OPTION ..
  ffmpeg -v error -nostdin -f lavfi -i "$(film "$2" "$3" "$4" "$6"),setsar=1" -frames:v "$5" -pix_fmt yuv420p -f yuv4mpegpipe - 2> /dev/null |
    mpeg2enc -v 0 "${@:7}" -o "$out/mpeg2enc_$1.m1v" > target/encoder.log 2>&1 || refused "mpeg2enc_$1"
  [ -s "$out/mpeg2enc_$1.m1v" ] || refused "mpeg2enc_$1"
}

refused() {
  rm -f "$out/$1.m1v"
  case " $refusals " in
    *" $1 "*) ;;
    *) refusals="$refusals $1" ;;
  esac
}

rates=(24000/1001 24 25 30000/1001 30 50 60000/1001 60)
sizes=('1 1' '2 2' '15 16' '16 15' '17 33' '31 1' '1 31' '48 32' '64 48' '100 75' '176 144' '353 287' '720 16' '16 720' '2000 24' '24 2000' '4095 16' '16 2800')
# height by width of a sample, the fourteen of the standard
aspects=(1.0000 0.6735 0.7031 0.7615 0.8055 0.8437 0.8935 0.9157 0.9815 1.0255 1.0695 1.0950 1.1575 1.2015)
custom=$(seq -s, 8 71)

ffmpeg_streams() {
  local n=0 size rate aspect g bf
  for size in "${sizes[@]}"; do
    by_ffmpeg "size_${size/ /x}" $size 25 12 0.02 -g 8 -bf 2 -q:v 4
    by_ffmpeg "fine_${size/ /x}" $size 25 6 0.02 -g 3 -bf 0 -q:v 1 -qmin 1
  done
  for rate in "${rates[@]}"; do by_ffmpeg "rate_$((n += 1))" 64 48 "$rate" 20 0.02 -g 10 -bf 1; done
  for aspect in "${aspects[@]}"; do filter=",setsar=10000/${aspect/./}" by_ffmpeg "aspect_$((n += 1))" 64 48 25 6 0.02; done
  for g in 1 2 5 12 300; do
    for bf in 0 1 2 4; do
      by_ffmpeg "gop_${g}_${bf}_open" 96 80 25 30 0.03 -g $g -bf $bf -q:v 5
      by_ffmpeg "gop_${g}_${bf}_closed" 96 80 25 30 0.03 -g $g -bf $bf -q:v 7 -flags +cgop -sc_threshold 1000000000
    done
  done
  # vectors of every length, and with them every f code
  for scroll in 0.005 0.01 0.02 0.04 0.08 0.12 0.2 0.3; do
    by_ffmpeg "vectors_$scroll" 1024 64 25 10 $scroll -g 10 -bf 0 -me_range 0 -dia_size 1279
    by_ffmpeg "vectors_b_$scroll" 1024 48 25 10 $scroll -g 10 -bf 2 -me_range 0 -dia_size 1279
  done
  for g in 4 31; do by_ffmpeg "scale_$g" 176 144 25 15 0.02 -q:v $g -bf 2; done
  by_ffmpeg bits_low 352 288 25 20 0.05 -b:v 100k -bf 2
  by_ffmpeg bits_high 352 288 25 20 0.05 -b:v 8M -bf 2
  by_ffmpeg matrices 176 144 25 12 0.02 -intra_matrix "$custom" -inter_matrix "$custom" -bf 2
  by_ffmpeg slices 176 144 25 12 0.02 -slices 9 -bf 2
  by_ffmpeg trellis 176 144 25 12 0.02 -trellis 2 -mbd rd -bf 2
  by_ffmpeg errors 176 144 25 30 0.02 -error_rate 50 -bf 2
  by_ffmpeg largest 4095 2800 25 4 0.02 -q:v 8 -bf 1
}

mpeg2enc_streams() {
  local n=0 size rate m r matrix
  for size in '16 16' '32 32' '64 48' '96 80' '176 144' '352 288' '720 576' '1920 1080' '4080 2800'; do
    by_mpeg2enc "size_${size/ /x}" $size 25 5 0.02 -f 0 -V 4000 -b 40000 -q 8
  done
  for rate in "${rates[@]}"; do by_mpeg2enc "rate_$((n += 1))" 96 80 "$rate" 20 0.02 -f 0 -V 4000 -F $n -b 4000; done
  for m in 1 2 3 4; do by_mpeg2enc "aspect_$m" 96 80 25 5 0.02 -f 0 -V 4000 -a $m -b 4000; done
  for m in 0 1 2; do
    for r in 0 8 16 24 32; do
      by_mpeg2enc "radius_${m}_$r" 352 96 25 16 0.04 -f 0 -V 4000 -R $m -r $r -g 4 -G 9 -b 8000 -q 6
      by_mpeg2enc "closed_${m}_$r" 176 144 25 16 0.02 -f 0 -V 4000 -R $m -r $r -c -g 6 -G 6 -b 8000 -q 3
    done
  done
  for matrix in hi-res tmpgenc kvcd; do by_mpeg2enc "matrix_$matrix" 176 144 25 10 0.02 -f 0 -V 4000 -K $matrix -b 4000; done
  by_mpeg2enc vcd 352 288 25 25 0.02 -f 1
  by_mpeg2enc vcd_ntsc 352 240 30000/1001 25 0.02 -f 1 -n n
  by_mpeg2enc user_vcd 352 288 25 25 0.02 -f 2 -b 2500 -V 2000 -s
  by_mpeg2enc fixed 176 144 25 30 0.02 -f 0 -V 4000 -R 2 -P -g 12 -G 12 -b 3000 -Q 3.0 -X 800
  by_mpeg2enc reduced 176 144 25 30 0.02 -f 0 -V 4000 -4 1 -2 1 -N 1.0 -b 600
}
