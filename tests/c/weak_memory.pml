// Memory in which stores pass each other, for tests/c/copy_order.pml and tests/c/file_order.pml: one thread stores, and
// another one loads. A store is seen at once, or as late as may be, whatever is seen of others: a load finds what its
// word had at any moment that isn't before `since`. So it may also be early. But of one word's stores none passes
// another in the order of the loads that an order, or an acquiring load, divides.

byte to[STORES], what[STORES]; // each store that was made: to which word, and its value
bool releases[STORES];
byte made;  // how many there are
byte since; // all before this one are seen
byte moment, at;

inline store(word, value, does_release)
{
    d_step {
        to[made] = word;
        what[made] = value;
        releases[made] = does_release;
        made++
    }
}

// What acquires sees all that was stored before what it finds, if that was stored with release.
inline load(found, word, does_acquire)
{
    atomic {
        select (moment : since .. made);
        skip;
        d_step {
            at = moment;
            do
            :: at > 0 && to[at - 1] != word -> at--
            :: else -> break
            od;
            found = what[at - 1];
            if
            :: does_acquire && releases[at - 1] && at > since -> since = at
            :: else
            fi;
            moment = 0;
            at = 0
        }
    }
}
