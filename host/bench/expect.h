/* Lines that hold a figure to what was expected. */
#ifndef EXPECT_H
#define EXPECT_H

void expect(const char *what, double figure, double least);
void expect_at_most(const char *what, double figure, double most);
void expect_ns_at_most(const char *what, double ns, double most);

#endif
