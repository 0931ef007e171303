
local counts, names = {}, {}
for line in io.lines() do
    for word in line:gmatch("%a+") do counts[word] = (counts[word] or 0) + 1 end
end
for name in pairs(counts) do names[#names + 1] = name end
table.sort(names, function(a, b) return counts[a] > counts[b] or counts[a] == counts[b] and a < b end)
for i = 1, 50 do print(names[i], counts[names[i]], string.format("%.17g", math.sqrt(counts[names[i]]))) end
