/* The side of our library. */
#include "sides.h"

const struct side ours = { "ours", planner_read, planner_levels, planner_judge, planner_next, planner_lowest };
