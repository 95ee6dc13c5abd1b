"""Longest common subsequences."""


def lengths(left, right):
    """The table of the lengths of the common subsequences of what follows each pair of places."""
    table = [[0] * (len(right) + 1) for _ in range(len(left) + 1)]
    for i in range(len(left) - 1, -1, -1):
        row, below = table[i], table[i + 1]
        for j in range(len(right) - 1, -1, -1):
            row[j] = below[j + 1] + 1 if left[i] == right[j] else max(below[j], row[j + 1])
    return table


def common_length(left, right):
    return lengths(left, right)[0][0]


def pairs(left, right):
    """The places of a longest common subsequence in both."""
    front = 0
    while front < min(len(left), len(right)) and left[front] == right[front]:
        front += 1
    table = lengths(left[front:], right[front:])
    found, i, j = [(it, it) for it in range(front)], 0, 0
    while i < len(table) - 1 and j < len(table[0]) - 1:
        if left[front + i] == right[front + j]:
            found.append((front + i, front + j))
            i, j = i + 1, j + 1
        elif table[i + 1][j] >= table[i][j + 1]:
            i += 1
        else:
            j += 1
    return found
