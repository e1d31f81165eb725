"""The bins of samples: there are at most so many, and intervals are joined in pairs where they would be more."""


class Histogram:
    """The bins of the samples so far."""

    def __init__(self, bins):
        self.most, self.w, self.n = bins, 1, 0
        self.list = []           # from, to, sum, how many samples

    def push(self, total, from_, to):
        if self.n == self.most * self.w:
            old, self.list = self.list, []
            for k in range(0, len(old), 2):
                a = old[k]
                if k + 1 < len(old):
                    b = old[k + 1]
                    a = [a[0], b[1], (a[2] + b[2]) % 2 ** 64, a[3] + b[3]]
                self.list.append(a)
            self.w *= 2
        self.n += 1
        if self.list and self.list[-1][3] < self.w:
            a = self.list[-1]
            a[1], a[2], a[3] = to, (a[2] + total) % 2 ** 64, a[3] + 1
        else:
            self.list.append([from_, to, total % 2 ** 64, 1])

    def bins(self):
        return [(a[0], a[1], a[2]) for a in self.list]

    def width(self):
        return self.w
