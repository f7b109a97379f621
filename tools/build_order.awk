# The crates of the program in the order in which they would end in a first build, a line each: when, and the name.
#
# As rt has it, `lanes` crates are proved side by side, each after those below it, and first those with the longest chain of others
# above them. A crate takes as long as its sources and the number of those below it let expect (a fit over measured crates, in no
# unit), and no time where it has been proved. Reads a line for each file, its size and its path below the top folder, or
# `crates/NAME/out` of a crate that has been proved, and then crates.txt.

# All crates below one.
function find_below(name, found, parts, count, i) {
  count = split(uses[name], parts, " ")
  for (i = 1; i <= count; i++)
    if (parts[i] in uses && !(parts[i] in found)) {
      found[parts[i]]
      find_below(parts[i], found)
    }
}

# A crate after those below it.
function add(name, parts, count, i, found) {
  if (name in known) return
  known[name]
  count = split(uses[name], parts, " ")
  for (i = 1; i <= count; i++)
    if (parts[i] in uses) add(parts[i])
  find_below(name, found)
  for (i in found) below[name]++
  takes[name] = name in built ? 0 : 16000 + size[name] + 900 * below[name]
  order[++total] = name
}

# How long a crate and the longest chain above it take.
function find_chains(name, parts, count, i, place) {
  for (place = total; place >= 1; place--) {
    name = order[place]
    chain[name] += takes[name]
    count = split(uses[name], parts, " ")
    for (i = 1; i <= count; i++)
      if (parts[i] in known && chain[parts[i]] < chain[name]) chain[parts[i]] = chain[name]
  }
}

function is_ready(name, parts, count, i) {
  count = split(uses[name], parts, " ")
  for (i = 1; i <= count; i++)
    if (parts[i] in uses && !(parts[i] in over)) return 0
  return 1
}

# The crate that is begun next, if one can be.
function find_next(i, best) {
  best = ""
  for (i = 1; i <= total; i++)
    if (!(order[i] in begun) && is_ready(order[i]) && (best == "" || chain[order[i]] > chain[best])) best = order[i]
  return best
}

FNR == 1 { files++ }
files == 1 {
  split($2, path, "/")
  if (path[3] == "out") built[path[2]]
  else size[path[2]] += $1
}
files == 2 && /^[a-z][^#]*:/ {
  name = $1
  sub(/:.*/, "", name)
  sub(/^[^:]*:/, "")
  uses[name] = $0
}

END {
  add("pegasus")
  find_chains()
  while (ended < total) {
    soonest = -1
    for (i = 1; i <= lanes; i++) {
      if (!(i in lane) && (name = find_next()) != "") {
        begun[name]
        lane[i] = name
        ends[name] = now + takes[name]
      }
      if (i in lane && (soonest < 0 || ends[lane[i]] < soonest)) soonest = ends[lane[i]]
    }
    if (soonest < 0) exit
    now = soonest
    for (i = 1; i <= lanes; i++)
      if (i in lane && ends[lane[i]] <= now) {
        print now + 0, lane[i]
        over[lane[i]]
        delete lane[i]
        ended++
      }
  }
}
