# The page for curators: what its files may not have, and its stories in a real browser. Without Chromium, websocketd or yt the
# stories are skipped, with a message.
page=share/web/page
check 'each module of the page opens with a sentence on its job' \
  "$(for file in $page/*.js $page/views/*.js; do head -n 1 "$file" | grep -q '^// ' || echo "$file"; done)"
check 'the page makes no HTML and no code of text' \
  "$(grep -rnE 'innerHTML|outerHTML|insertAdjacentHTML|document\.write|DOMParser|createContextualFragment|eval\(|new Function|setHTML' $page)"
check 'the page takes nothing from elsewhere' "$(grep -rnE 'https?:|//[a-z0-9-]+\.[a-z]' $page | grep -v 'www.w3.org/2000/svg')"
check 'the page has no script, style or handler in its HTML' "$(grep -nE '<script[^>]*>[^<]|<style|style=| on[a-z]+=' $page/index.html)"

told=$(PATIENCE=${PATIENCE:-180} tests/web/run --keep 2>&1) && failures= || failures=$told
case $told in
  skipped:*) echo "the stories of the page in a browser are $told" ;;
  *) check 'each story of the page goes well in a browser, and its console is quiet' "$failures" ;;
esac
