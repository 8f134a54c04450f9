# MPEG-1 video out of Debian packages: each .mpg, .mpeg, .m1v and .mpv that a package of the configured mirror has.

# The mirror's lists of the files in packages, those for all machines and those for amd64.
contents() {
  apt-get indextargets --format '$(REPO_URI) $(RELEASE) $(COMPONENT)' 'Created-By: Packages' | grep '/debian/ [a-z]* main$' | sort -u |
    while read -r uri release component; do
      for machine in all amd64; do
        curl -sf "${uri}dists/$release/$component/Contents-$machine.gz" | gzip -dc 2> /dev/null || true
      done
    done
}

# The package and the path of each film, one a line.
films() {
  contents | grep -iE '\.(mpg|mpeg|m1v|mpv)[[:space:]]' | grep -v '^usr/lib/' | sed -E 's/^(.*[^ ]) +[^ ]*\/([^ ,]+)$/\2 \1/' | sort -u
}

# Takes the video out of the system layer. MPEG-2 is taken, too: to a decoder of MPEG-1 it is a damaged stream. What is neither is said and left out. A
# stream that is too long is cut.
take_film() { # PACKAGE PATH FILE
  local name codec
  name=$1_$(basename "${2%.*}")
  codec=$(ffprobe -v error -select_streams v:0 -show_entries stream=codec_name -of default=nk=1:nw=1 "$3" 2> /dev/null | head -n 1)
  echo "$1 $2: ${codec:-no video}"
  case $codec in
    mpeg1video | mpeg2video) ffmpeg -v error -nostdin -y -i "$3" -map 0:v:0 -c copy -f "$codec" - 2> /dev/null | head -c 16777216 > "$out/${codec}_$name.m1v" ;;
  esac
}

packages() {
  local package path
  mkdir -p target/packages
  films > target/films.txt
  while read -r package path; do
    if ! ls target/packages/"$package"_*.deb > /dev/null 2>&1; then
      (cd target/packages && apt-get -qq -o APT::Sandbox::User=root download "$package") || { echo "$package: not downloaded"; continue; }
    fi
    rm -rf target/unpacked
    dpkg-deb -x target/packages/"$package"_*.deb target/unpacked
    take_film "$package" "$path" "target/unpacked/$path"
  done < target/films.txt
}
