% The least cost of capacities under which a project ends by its deadline. Times count from 0, jobs and resources from 1.
include "cumulative.mzn";

int: jobs;
int: resources;
array[1..jobs] of int: duration;
array[1..jobs, 1..resources] of int: request;
array[int, 1..2] of int: pairs;                % jobs, of which the second starts only when the first has ended
array[1..jobs] of int: earliest;               % start of a job
array[1..jobs] of int: latest;
array[1..resources] of int: price;             % of a unit
array[1..resources] of int: least;             % units, without which no schedule ends in time
array[1..resources] of int: most;              % units, above which a plan is not the cheapest

array[1..jobs] of var int: start;
array[1..resources] of var int: capacity;
var int: cost;

constraint forall(job in 1..jobs)(start[job] in earliest[job]..latest[job]);
constraint forall(resource in 1..resources)(capacity[resource] in least[resource]..most[resource]);
constraint forall(row in index_set_1of2(pairs))(start[pairs[row, 2]] >= start[pairs[row, 1]] + duration[pairs[row, 1]]);

constraint forall(resource in 1..resources)(
  let { array[int] of int: users = [job | job in 1..jobs where duration[job] > 0 /\ request[job, resource] > 0] } in
  if length(users) > 0 then
    cumulative([start[job] | job in users], [duration[job] | job in users], [request[job, resource] | job in users],
               capacity[resource])
  endif);

constraint cost = sum(resource in 1..resources)(price[resource] * capacity[resource]);

% The first costs that are tried are the least, so the first solution is the last. The job that took part in the most
% failures, by the starts that it has left, is given the least of these.
solve :: seq_search([
    int_search([cost], input_order, indomain_min),
    int_search(capacity, input_order, indomain_min),
    int_search(start, dom_w_deg, indomain_min)])
  minimize cost;

output ["cost \(cost)\n"] ++ ["capacity \(resource) \(capacity[resource])\n" | resource in 1..resources];
