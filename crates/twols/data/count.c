int main(void) {
    int n = __VERIFIER_nondet_int();
    int i = 0;
    while (i < n) {
        i = i + 1;
    }
    assert(i == n);
    return 0;
}
