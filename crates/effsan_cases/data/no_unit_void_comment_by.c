

void

/* ( */
