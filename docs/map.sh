#!/usr/bin/env bash
# Draws crates.txt: docs/map.dot (Graphviz) and docs/map.svg. `map.sh FOLDER` writes them there instead.
# A family is a prefix (cut, cut_rows, cut_index ..) and is a cluster in map.dot; a heading of crates.txt is a band in map.svg.
# An arrow says 'uses'; one that follows from others is left out: a crate that uses cut uses net through it.
set -eu
root=$(cd "$(dirname "$0")/.." && pwd)
to=${1:-$root/docs}

# what a crate uses of the toolchain's own (io) is not drawn
LC_ALL=C awk -v dot="$to/map.dot" -v svg="$to/map.svg" '
    /^#/ { heading = substr($0, 3); next }
    /^[a-z_]+( staticlib)?:/ {
        name = $1; sub(/:$/, "", name)
        crates[++n] = name; known[name] = 1
        sub(/^[^:]*:/, "")
        uses[name] = $0
        if (heading != last) { bands[++m] = heading; last = heading }
        band[name] = m
    }

    # does a reach b by one arrow or more?
    function reaches(a, b,    k, part, i) {
        if ((a, b) in reached) return reached[a, b]
        k = split(uses[a], part, " ")
        for (i = 1; i <= k; i++)
            if (part[i] in known && (part[i] == b || reaches(part[i], b))) return reached[a, b] = 1
        return reached[a, b] = 0
    }
    # the arrows of a that follow from no other
    function direct(a,    k, part, i, j, out) {
        k = split(uses[a], part, " ")
        out = ""
        for (i = 1; i <= k; i++) {
            if (!(part[i] in known)) continue
            for (j = 1; j <= k; j++) if (part[j] in known && reaches(part[j], part[i])) break
            if (j > k) out = out " " part[i]
        }
        return out
    }
    function family(a) { sub(/_.*/, "", a); return a }
    # how far a stands above the lowest of its band
    function level(a,    k, part, i, l, best) {
        if (a in levels) return levels[a]
        k = split(uses[a], part, " ")
        best = 0
        for (i = 1; i <= k; i++)
            if (part[i] in known && band[part[i]] == band[a] && (l = level(part[i]) + 1) > best) best = l
        return levels[a] = best
    }

    function draw_dot(    i, j, k, part, f, sisters, inside) {
        print "// drawn by docs/map.sh from crates.txt" > dot
        print "digraph rooms {" > dot
        print "  rankdir=TB" > dot
        print "  node [shape=box style=\"rounded,filled\" fillcolor=white fontname=\"Helvetica\" fontsize=12]" > dot
        print "  edge [color=grey50 arrowsize=0.6]" > dot
        for (i = 1; i <= n; i++) sisters[family(crates[i])]++
        for (i = 1; i <= n; i++) {
            f = family(crates[i])
            if (sisters[f] == 1) { print "  " crates[i] > dot; continue }
            if (f in inside) continue
            inside[f] = 1
            print "  subgraph cluster_" f " {" > dot
            print "    label=" f " color=grey70 style=\"rounded,filled\" fillcolor=grey95 fontname=\"Helvetica\" fontsize=11" > dot
            for (j = i; j <= n; j++) if (family(crates[j]) == f) print "    " crates[j] > dot
            print "  }" > dot
        }
        for (i = 1; i <= n; i++) {
            k = split(direct(crates[i]), part, " ")
            for (j = 1; j <= k; j++) print "  " crates[i] " -> " part[j] > dot
        }
        print "}" > dot
    }

    # how far a band stands above the lowest: over every band that it uses
    function storey(b,    i, j, k, part, l, best) {
        if (b in storeys) return storeys[b]
        best = 0
        for (i = 1; i <= n; i++) {
            if (band[crates[i]] != b) continue
            k = split(uses[crates[i]], part, " ")
            for (j = 1; j <= k; j++)
                if (part[j] in known && band[part[j]] != b && (l = storey(band[part[j]]) + 1) > best) best = l
        }
        return storeys[b] = best
    }
    # bands of a storey side by side, what they use below them; in a band each crate above those that it uses
    function draw_svg(    i, j, k, b, l, s, a, top, part, width, y, x, w, gap, size, row, cx, cy, left, above, need, tall, all, total, high, highest) {
        width = 1000
        for (i = 1; i <= n; i++) {
            b = band[crates[i]]; l = level(crates[i])
            if (l > top[b]) top[b] = l
            size[b, l] += wide(crates[i]) + 14
            if (size[b, l] > need[b]) need[b] = size[b, l]
            all[b, l]++
        }
        for (b = 1; b <= m; b++) {
            s = storey(b)
            if (s > high) high = s
            if (top[b] > highest[s]) highest[s] = top[b]
            if (need[b] < 5.6 * length(bands[b])) need[b] = 5.6 * length(bands[b])
            total[s] += need[b]
            count[s]++
        }
        y = 4
        for (s = high; s >= 0; s--) {
            x = 4
            tall = 28 + 38 * (highest[s] + 1)
            for (b = 1; b <= m; b++) {
                if (storey(b) != s) continue
                w = need[b] + (width - 8 - total[s] - 6 * (count[s] - 1)) / count[s]
                left[b] = x; above[b] = y; across[b] = w; deep[b] = tall
                for (l = 0; l <= top[b]; l++) {
                    gap = (w - size[b, l] + 14 * all[b, l]) / (all[b, l] + 1)
                    k = x + gap
                    for (i = 1; i <= n; i++) {
                        a = crates[i]
                        if (band[a] != b || level(a) != l) continue
                        cx[a] = k + wide(a) / 2
                        cy[a] = y + tall - 20 - 38 * l
                        k += wide(a) + gap
                    }
                }
                x += w + 6
            }
            y += tall + 10
        }
        printf "<svg xmlns=\"http://www.w3.org/2000/svg\" viewBox=\"0 0 %d %d\" width=\"%d\" height=\"%d\" font-family=\"Helvetica, Arial, sans-serif\" font-size=\"12\">\n", width, y, width, y > svg
        print "<!-- drawn by docs/map.sh from crates.txt -->" > svg
        printf "<rect width=\"%d\" height=\"%d\" fill=\"white\"/>\n", width, y > svg
        for (b = 1; b <= m; b++) {
            printf "<rect x=\"%d\" y=\"%d\" width=\"%d\" height=\"%d\" rx=\"6\" fill=\"#f1f1ee\"/>\n", left[b], above[b], across[b], deep[b] > svg
            printf "<text x=\"%d\" y=\"%d\" font-size=\"11\" fill=\"#777777\">%s</text>\n", left[b] + 8, above[b] + 15, bands[b] > svg
        }
        for (i = 1; i <= n; i++) {
            a = crates[i]
            k = split(direct(a), part, " ")
            for (j = 1; j <= k; j++)
                printf "<line x1=\"%d\" y1=\"%d\" x2=\"%d\" y2=\"%d\" stroke=\"%s\"/>\n", cx[a], cy[a] + 12, cx[part[j]], cy[part[j]] - 12, band[a] == band[part[j]] ? "#333333" : "#a9a9b8" > svg
        }
        for (i = 1; i <= n; i++) {
            a = crates[i]
            printf "<rect x=\"%d\" y=\"%d\" width=\"%d\" height=\"24\" rx=\"5\" fill=\"white\" stroke=\"#555555\"/>\n", cx[a] - wide(a) / 2, cy[a] - 12, wide(a) > svg
            printf "<text x=\"%d\" y=\"%d\" text-anchor=\"middle\">%s</text>\n", cx[a], cy[a] + 4, a > svg
        }
        print "</svg>" > svg
    }
    function wide(a) { return 18 + 7 * length(a) }

    END { draw_dot(); draw_svg() }
' "$root/crates.txt"
