-- ports with more than ten arrivals
SELECT p.name, COUNT(*) AS arrivals, MAX(a.depth) AS deepest
FROM ports AS p
JOIN arrivals AS a ON a.port = p.id AND a.day >= DATE '2024-05-01'
WHERE p.country IN ('NO', 'SE') AND a.cargo IS NOT NULL
GROUP BY p.name
HAVING COUNT(*) > 10
ORDER BY arrivals DESC;
