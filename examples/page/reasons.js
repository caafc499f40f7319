/** Why points of a contour are removed, for display: the library says which are left, and not why the others aren't. */

/** Returns what point b is between its neighbours a and c: "repeated", "straight", "spike", or undefined where the way bends there. */
export function reasonOf(a, b, c) {
    const [ux, uy, vx, vy] = [b[0] - a[0], b[1] - a[1], c[0] - b[0], c[1] - b[1]].map(BigInt);
    if ((ux === 0n && uy === 0n) || (vx === 0n && vy === 0n)) return "repeated";
    if (ux * vy !== uy * vx) return undefined;
    return ux * vx + uy * vy > 0n ? "straight" : "spike";
}

/** The places of the given points that are left, where what is left are some of them in their order. */
function leftPlaces(given, left) {
    const places = new Set();
    given.forEach(([x, y], place) => {
        const next = left[places.size];
        if (next && next[0] === x && next[1] === y) places.add(place);
    });
    return places;
}

/**
 * Returns for each place of a point that is removed its reason: that which it has when it goes, as the points go one by one. "collapsed" is that of the
 * last two of a contour that has no area.
 */
export function reasonsOf(given, left) {
    const stays = leftPlaces(given, left);
    const reasons = new Map();
    const ring = new Ring(given);
    // Those that the library removes first; another copy of a point where none of these can go.
    for (const mayGo of [(place) => !stays.has(place), () => true]) {
        ring.removeWhere(mayGo, (place, reason) => reasons.set(place, reason));
    }
    if (left.length === 0) given.forEach((_, place) => reasons.has(place) || reasons.set(place, "collapsed"));
    return reasons;
}

/** The places of a contour as a ring, from which they are removed. */
class Ring {
    constructor(points) {
        const { length } = points;
        this.points = points;
        this.size = length;
        this.previous = points.map((_, k) => (k + length - 1) % length);
        this.next = points.map((_, k) => (k + 1) % length);
        this.first = 0;
    }

    /** Goes round, and back by one behind each removal, until no place that may go has a reason to. */
    removeWhere(mayGo, tell) {
        let place = this.first;
        for (let visits = 0; visits < this.size && this.size > 2;) {
            const reason = mayGo(place) ? reasonOf(this.points[this.previous[place]], this.points[place], this.points[this.next[place]]) : undefined;
            if (reason) {
                tell(place, reason);
                place = this.#remove(place);
                visits = 0;
            } else {
                place = this.next[place];
                visits++;
            }
        }
        this.first = place;
    }

    #remove(place) {
        const before = this.previous[place];
        const behind = this.next[place];
        this.next[before] = behind;
        this.previous[behind] = before;
        this.size--;
        return before;
    }
}
