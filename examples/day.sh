#!/bin/sh
# A day with the shop's pipeline (examples/shop), as messages for `pipectl replay`: examples/day.http is what this writes, and
# examples/day.replies what the messages are answered. The admin's token is abc. Run it at the top of a clone:
#   sh examples/day.sh | ./pipectl replay --admin "$(printf abc | sha256sum | cut -d ' ' -f 1)"
set -e

# says TOKEN METHOD TARGET [BODY]: one message
says() {
    if [ $# -eq 3 ]; then
        tools/message "$2" "$3" "$1"
    else
        printf '%s' "$4" | tools/message "$2" "$3" "$1" -
    fi
}

# knows NAME ROLE: the admin makes NAME known, whose token is NAME-token
knows() {
    digest=$(printf %s "$1-token" | sha256sum | cut -d ' ' -f 1)
    says abc PUT "/principals/$1" "{\"roles\":[\"$2\"],\"tokenSha256\":\"$digest\"}"
}

# puts FILE REPO PATH: ann puts a file of the shop; in a target a slash inside a part is %2F
puts() {
    tools/message PUT "/files/$2/refs%2Fheads%2Fmain/$3" ann-token "examples/shop/$1"
}

# reports NAME STAGE JOB: the agent NAME says that the job of run 1 went well
reports() {
    says "$1-token" POST "/runs/1/stages/$2/jobs/$3/report" '{"result":"Succeeded","outputs":{}}'
}

# 1. Who there is: ann writes pipelines, bob approves, and two agents work in the pool `linux`.
knows ann Author
knows bob Approver
knows linux-1 Agent
knows linux-2 Agent
says abc PUT /agents/linux-1 '{"pool":"linux","capabilities":{"Agent.OS":"Linux"}}'
says abc PUT /agents/linux-2 '{"pool":"linux","capabilities":{"Agent.OS":"Linux"}}'

# 2. What is guarded: the pool is for the shop's pipeline. What goes to production extends the platform's template, comes from the
# main branch, and is approved by bob; and one stage at a time deploys there.
says abc PUT /pipelines/shop '{"repo":"app","path":"/ci.yml"}'
says abc PUT /resources/pool/linux '{"pipelines":["shop"],"exclusive":false,"checks":[]}'
says abc PUT /resources/environment/production '{"pipelines":["shop"],"exclusive":true,"checks":[
{"kind":"requiredTemplate","templates":[{"repo":"platform/templates","ref":"refs/heads/main","path":"/pipelines/services.yml"}]},
{"kind":"branch","patterns":["refs/heads/main"]},
{"kind":"approval","approvers":["bob"],"least":1,"requester":false}]}'

# 3. The files: each reply counts the changes so far.
puts app/ci.yml app %2Fci.yml
puts templates/pipelines/services.yml platform%2Ftemplates %2Fpipelines%2Fservices.yml
puts templates/jobs/build.yml platform%2Ftemplates %2Fjobs%2Fbuild.yml
puts templates/jobs/test.yml platform%2Ftemplates %2Fjobs%2Ftest.yml
puts templates/steps/deploy.yml platform%2Ftemplates %2Fsteps%2Fdeploy.yml

# 4. A run is queued, and each agent draws a job of its first stage. What linux-2 has taken, linux-1 can't claim.
says ann-token POST /runs '{"pipeline":"shop","ref":"refs/heads/main","parameters":{}}'
says linux-1-token POST /draw
says linux-2-token POST /draw
says linux-1-token POST /runs/1/stages/Build/jobs/Build_orders/claim

# 5. Both are reported, and the tests are drawn and reported.
reports linux-1 Build Build_cart
reports linux-2 Build Build_orders
says linux-1-token POST /draw
says linux-2-token POST /draw
reports linux-1 Test Test.node18
reports linux-2 Test Test.node20

# 6. The deployment waits for bob: a claim is refused, a draw gives nothing, and ann is told why.
says linux-1-token POST /runs/1/stages/Deploy/jobs/Deploy_cart/claim
says linux-1-token POST /draw
says ann-token GET /runs/1/stages/Deploy/jobs/Deploy_orders/why/linux-2

# 7. ann may not approve, bob does, and what was refused is given.
says ann-token POST /runs/1/stages/Deploy/decision '{"verdict":"approve"}'
says bob-token POST /runs/1/stages/Deploy/decision '{"verdict":"approve"}'
says linux-1-token POST /runs/1/stages/Deploy/jobs/Deploy_cart/claim
says linux-2-token POST /draw
reports linux-1 Deploy Deploy_cart
reports linux-2 Deploy Deploy_orders

# 8. The run at the end of the day.
says ann-token GET /runs/1
